// SPDX-License-Identifier: Apache-2.0
// SPDX-FileCopyrightText: Copyright the Vortex contributors

//! The commands on sets of paths.
use super::prelude::*;
use crate::answer::Answer;
use crate::argument::Argument;

pub const SETS: &[Row] = rows! {
    ["cover", "PATH..", "a.b x a a.c", "the paths of which no other path is a prefix"] (paths: FieldPathSet => sorted(paths.try_into_iter()?)?)
    ["cover_counted", "PATH..", "a.b x a a.c", "the paths of which no other path is a prefix, followed by the number of nodes of the trie that were visited."] (paths: FieldPathSet => {
        let (cover, count) = paths.try_into_iter_counted()?;
        (sorted(cover)?, count)
    })
    ["leaves", "T", "{a=list(i32), b={}, c=map(utf8, u8, keys_sorted=false)}", "the paths to the parts of the type into which no step leads further"] (dtype: DType => sorted(dtype.try_leaf_paths()?.try_into_iter()?)?)
    ["members", "PATH..", "a.b a x", "the paths, each once"] (paths: FieldPathSet => sorted(paths.try_iter()?)?)
    ["contains", "PATH PATH..", "a a.b x", "whether the first path is one of the others"] (path: FieldPath, paths: FieldPathSet => paths.contains(&path))
    ["set", "NAME new|insert PATH|extend PATH PATH..|contains PATH|below PATH|missing T|compare PATH..|union PATH..|iter|cover|drain|drop", "s insert a.c", "new makes an empty set with this name; insert and extend add paths, and make the set too if there is none; contains prints whether a path is in it, below how its paths continue after a path, missing those that a type lacks, compare how many paths it and the set of other paths have and how the two are related, union the paths of both, iter all, cover the fewest that cover it; drain prints the same and empties the set; drop removes it", "condition: at most 16 sets; unknown: the set"] (|call, console| console.sets.answer(call, CHANGES, &MAKES, change))
    ["sets", "", "", "the names of the sets, in the order in which they were made"] (|call, console| call.last().and_then(|()| call.say(Joined(" ", console.sets.names()))))
    ["project_paths", "T PATH..", "{a=list({b=u32, c=utf8})?, d=bool} a.[].b", "the part of the type that a reader of the paths opens, or none if none of the paths exists in the type"] (dtype: DType, paths: FieldPathSet => dtype.try_project_paths(&paths)?)
    ["without_paths", "T PATH..", "{a={b=i32, c=u8}?, d=utf8} a.b d", "the type without the parts to which the paths lead, or none if nothing is left"] (dtype: DType, paths: FieldPathSet => dtype.try_without_paths(&paths)?)
};

/// What `set` does to a set, and what makes one if there is none.
const CHANGES: &str = "new, insert, extend, contains, below, missing, compare, union, iter, cover, drain or drop";
const MAKES: [&str; 3] = ["new", "insert", "extend"];

/// Answers a command on a set with a name.
fn change(call: &mut Call<'_>, word: &str, set: &mut FieldPathSet) -> Result<()> {
    if matches!(word, "insert" | "extend") && call.line.is_at_end() {
        call.line.skip_blanks();
        return Err(call.line.expected("a path"));
    }
    // (where the set changes the answer comes first, so that nothing changes if there is no memory for it)
    match word {
        "insert" => with(call, |path, answer| ().write(answer).and_then(|()| Ok(set.try_insert(path)?))),
        "extend" => with(call, |paths: Vec<_>, answer| ().write(answer).and_then(|()| Ok(set.try_extend(paths)?))),
        "contains" => with(call, |path, answer| set.contains(&path).write(answer)),
        "below" => with(call, |path, answer| write_below(set, &path, answer)),
        "missing" => with(call, |dtype, answer| sorted(set.try_unresolved(&dtype)?)?.write(answer)),
        "compare" => with(call, |other, answer| write_compared(set, &other, answer)),
        "union" => with(call, |other, answer| sorted(set.try_union(&other)?.try_iter()?)?.write(answer)),
        "iter" => call.last().and_then(|()| call.say(sorted(set.try_iter()?)?)),
        "cover" => call.last().and_then(|()| call.say(sorted(set.try_cover()?)?)),
        _ => {
            call.last::<()>()?;
            if word == "drain" { call.say(sorted(set.try_cover()?)?) } else { call.say(()) }?;
            *set = FieldPathSet::new();
            Ok(())
        }
    }
}

/// Reads the last argument of the line, and answers with it.
fn with<T: Argument>(call: &mut Call<'_>, answer: impl FnOnce(T, &mut fallible::String) -> Result<()>) -> Result<()> {
    let (argument,) = call.last()?;
    answer(argument, &mut call.answer)
}

/// Writes how the paths of a set continue after a path: `end` if it is in the set, `[]` if one continues with the step to
/// the element, the number of names with which paths continue, and the names, each with a dot if a path goes on after it.
fn write_below(set: &FieldPathSet, path: &FieldPath, answer: &mut fallible::String) -> Result<()> {
    let Some(here) = path.parts().iter().try_fold(set.cursor(), |here, step| here.step(step)) else {
        return Ok(answer.push_str("none")?);
    };
    let mut names = fallible::Vec::new();
    for (name, below) in here.names() {
        let goes_on = below.element().is_some() || below.names().len() > 0;
        let mut text = text_of(name)?;
        text.push_str(if goes_on { "." } else { "" })?;
        names.push(text)?;
    }
    names.sort_unstable();
    let mut ends = words([("nothing ", here.is_empty()), ("end ", here.is_end()), ("[] ", here.element().is_some())]);
    ends.1.try_for_each(|word| answer.push_str(word))?;
    write!(answer, "{}", names.len())?;
    Ok(names.iter().try_for_each(|name| write!(answer, " {name}"))?)
}

/// Writes how many paths each of two sets has, and how the two are related.
fn write_compared(set: &FieldPathSet, other: &FieldPathSet, answer: &mut fallible::String) -> Result<()> {
    write!(answer, "{} {}", set.len(), other.len())?;
    let mut related = words([
        (" empty", set.is_empty()),
        (" equal", set == other),
        (" subset", set.is_subset(other)),
        (" superset", set.is_superset(other)),
        (" disjoint", set.is_disjoint(other)),
    ]);
    Ok(related.1.try_for_each(|word| answer.push_str(word))?)
}
