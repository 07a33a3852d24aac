// SPDX-License-Identifier: Apache-2.0
// SPDX-FileCopyrightText: Copyright the Vortex contributors

//! Paths: made, read, compared, and resolved.

use std::collections::HashSet;
use std::hint::black_box;

use original::reader::{Readable, Reader};
use original::types::Told;
use vortex_array::dtype::FieldPath as Theirs;
use vortex_logical_types::FieldPath as Ours;

use crate::fixture::{Paths, Types, column, lists, struct_of, struct_text};
use crate::looks::{hashed, used};
use crate::meter::{Meter, alike, each};

/// A type in which there is a path of so many names, at each level among ten fields, and the path.
fn nest(depth: usize) -> (String, String) {
    let inside = (0..depth).fold("u32".to_owned(), |inside, _| {
        struct_of((0..10).map(|at| (column(at), if at == 7 { inside.clone() } else { "i32".to_owned() })))
    });
    (inside, vec![column(7); depth].join("."))
}

/// Paths are resolved in types.
pub fn resolved(meter: &mut Meter) {
    for depth in [1, 3, 10] {
        let (text, path) = nest(depth);
        let absent = format!("{}absent", path.strip_suffix("column_7").expect("the last step"));
        let (it, path, absent) = (Types::read(&text), Paths::read(&path), Paths::read(&absent));
        resolve(meter, &depth.to_string(), &it, &path);
        for (what, path) in [("exists_in", &path), ("exists_in, absent", &absent)] {
            let theirs = |i| usize::from(path.theirs(i).exists_in(it.theirs(i).clone()));
            meter.case(what, depth, each(theirs), each(|i| usize::from(path.ours(i).exists_in(it.ours(i)))));
        }
    }
    resolve(meter, "1 of 1000", &Types::read(&struct_text(1000)), &Paths::read("column_700"));
    let it = Types::read(&format!("{{a={{b={}}}}}", lists(2, "i32")));
    resolve(meter, "2 to a list of lists", &it, &Paths::read("a.b"));
}

/// The type at a path, as a type of its own. (The original takes the type, and returns one.)
fn resolve(meter: &mut Meter, of: &str, it: &Types, path: &Paths) {
    let theirs = |i| path.theirs(i).resolve(it.theirs(i).clone()).map_or(7, used);
    meter.case("resolve", of, each(theirs), each(|i| path.ours(i).resolve(it.ours(i)).cloned().map_or(7, used)));
}

/// The length of the name, or 1 for the element.
fn size(name: Option<&str>) -> usize {
    name.map_or(1, str::len)
}

/// Looks at the number of steps of a path that was made.
macro_rules! counted {
    ($path:expr) => {
        black_box(&$path).parts().len()
    };
}

/// A path of so many steps, of which each fourth is the element.
pub fn of_one(meter: &mut Meter, depth: usize) {
    let steps: Vec<String> = (0..depth).map(|at| if at % 4 == 3 { "[]".to_owned() } else { column(at) }).collect();
    let text = steps.join(".");
    let (it, same) = (Paths::read(&text), Paths::read(&text));
    let read = |_| Theirs::read(&mut Reader::new(&text)).map_or(70, |it| counted!(it));
    meter.case("path from text", depth, each(read), each(|_| text.parse::<Ours>().map_or(70, |it| counted!(it))));
    let told = |i| it.theirs(i).told().map_or(7, |it| it.len());
    meter.case("path to text", depth, each(told), each(|i| it.ours(i).to_source().len()));
    alike!(meter, "path display", depth, i, it = it.theirs(i), it.ours(i); it.to_string().len());
    alike!(meter, "path eq", depth, i, (one, other) = (it.theirs(i), same.theirs(i + 1)),
        (it.ours(i), same.ours(i + 1)); usize::from(one == other));
    alike!(meter, "path hash", depth, i, it = it.theirs(i), it.ours(i); hashed(it));
    alike!(meter, "path clone", depth, i, it = it.theirs(i), it.ours(i); counted!(it.clone()));
    alike!(meter, "path steps", depth, i, it = it.theirs(i), it.ours(i);
        it.parts().iter().map(|it| size(it.as_name())).sum());
    alike!(meter, "path overlap", depth, i, (one, other) = (it.theirs(i), same.theirs(i + 1)),
        (it.ours(i), same.ours(i + 1)); usize::from(one.overlap(other)));
    alike!(meter, "path clone and push", depth, i, it = it.theirs(i), it.ours(i); counted!(it.clone().push("pushed")));
    alike!(meter, "path clone and step_into", depth, i, it = it.theirs(i), it.ours(i);
        it.clone().step_into().map_or(70, |it| counted!(it)));
}

pub fn of_many(meter: &mut Meter) {
    alike!(meter, "path from 3 pushes", "", _i, name = black_box("a"), black_box("a");
        counted!(dtype::FieldPath::root().push(name).push(dtype::Field::ElementType).push(black_box("column_7"))));
    let paths: Vec<Paths> = (0..1000).map(|at| Paths::read(&format!("parent.{}", column(at)))).collect();
    let theirs: HashSet<Theirs> = paths.iter().map(|it| it.theirs[0].clone()).collect();
    let ours: HashSet<Ours> = paths.iter().map(|it| it.ours[0].clone()).collect();
    alike!(meter, "HashSet of 1000 paths, contains", "", i, (set, it) = (&theirs, paths[i % 1000].theirs(1)),
        (&ours, paths[i % 1000].ours(1)); usize::from(set.contains(it)));
}
