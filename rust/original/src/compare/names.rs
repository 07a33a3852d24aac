// SPDX-License-Identifier: Apache-2.0
// SPDX-FileCopyrightText: Copyright the Vortex contributors

//! Calls on names, lists of names, and steps of paths.

use std::sync::Arc;

use vortex_array::dtype as theirs;
use vortex_logical_types as ours;

use crate::generate;
use crate::report::hash_of;
use crate::round::*;

/// A name, another that is often the same, and steps that have them.
pub fn of_two(round: &mut Round) {
    let one = generate::name(&mut round.random);
    let other = if round.random.one_in(3) { one.clone() } else { generate::name(&mut round.random) };
    let texts = round.or_spoiled((one.clone(), other.clone()), ("spoiled".to_owned(), one.clone()));
    let about = || format!("{one:?} and {other:?}");
    both! { round, about(), (one, other) = (&one[..], &other[..]), (&texts.0[..], &texts.1[..]);
        "FieldName::from(&str)" => dtype::FieldName::from(one);
        "FieldName::from(String)" => dtype::FieldName::from(one.to_owned());
        "FieldName::from(Arc<str>)" => dtype::FieldName::from(Arc::<str>::from(one));
        "FieldName::to_string" => dtype::FieldName::from(one).to_string();
        "FieldName::as_ref" => AsRef::<str>::as_ref(&dtype::FieldName::from(one)).to_owned();
        "FieldName::clone" => dtype::FieldName::from(one).clone();
        "Arc<str>::from(FieldName)" => Arc::<str>::from(dtype::FieldName::from(one)).to_string();
        "String::from(FieldName)" => String::from(dtype::FieldName::from(one));
        "Field::from(&str)" => dtype::Field::from(one);
        "Field::from(FieldName)" => dtype::Field::from(dtype::FieldName::from(one));
        "Field::to_string" => dtype::Field::from(one).to_string();
        "Field::eq" => dtype::Field::from(one) == dtype::Field::from(other);
        "Field::hash" => hash_of(&dtype::Field::from(one)) == hash_of(&dtype::Field::from(other));
    }
    let here = (ours::FieldName::from(one.as_str()), ours::FieldName::from(other.as_str()));
    let there = (theirs::FieldName::from(texts.0.as_str()), theirs::FieldName::from(texts.1.as_str()));
    both! { round, about(), (one, name) = (&here.0, &here.1), (&there.0, &there.1);
        "FieldName::eq" => one == name;
        "FieldName::eq(&str)" => *one == other.as_str();
        "FieldName::cmp" => one.cmp(name);
        "FieldName::hash" => hash_of(one) == hash_of(name);
    }
    let (here, there) =
        (Some(one.clone()).filter(|_| one != other), Some(texts.0).filter(|_| one != other && !round.is_spoiled));
    both! { round, about(), it = ours_step(&here), theirs_step(&there);
        "Field::as_name" => it.as_name().map(str::to_owned);
        "Field::is_named" => it.is_named();
        "Field::clone" => it.clone();
        "ElementType::to_string" => it.to_string();
    }
}

/// A list of names, and a position and a name in it.
pub fn of_lists(round: &mut Round) {
    let names: Vec<String> = (0..round.random.below(6)).map(|_| generate::name(&mut round.random)).collect();
    let sought = if names.is_empty() || round.random.one_in(4) {
        generate::name(&mut round.random)
    } else {
        round.random.pick(&names).clone()
    };
    let at = round.random.below(names.len() + 2);
    let other = if round.random.bool() { names.clone() } else { names.iter().skip(1).cloned().collect() };
    let mut spoiled = vec!["spoiled".to_owned()];
    spoiled.extend(names.iter().take(names.len().saturating_sub(2)).cloned());
    let there = round.or_spoiled(names.clone(), spoiled);
    let list = |names: &[String]| -> ours::FieldNames { names.iter().map(String::as_str).collect() };
    let their_list = |names: &[String]| -> theirs::FieldNames { names.iter().map(String::as_str).collect() };
    let texts: Vec<&str> = other.iter().map(String::as_str).collect();
    let about = || format!("{names:?} with {at}, {sought:?} and {other:?}");
    both! { round, about(), (it, other) = (list(&names), list(&other)), (their_list(&there), their_list(&other));
        "FieldNames::from_iter" => it;
        "FieldNames::from(Vec)" => dtype::FieldNames::from(it.iter().cloned().collect::<Vec<dtype::FieldName>>());
        "FieldNames::from(Vec<&str>)" =>
            dtype::FieldNames::from(it.iter().map(|name| name.as_ref()).collect::<Vec<&str>>());
        "FieldNames::as_ref" => AsRef::<[dtype::FieldName]>::as_ref(&it).to_vec();
        "FieldNames::clone" => it.clone();
        "FieldNames::len" => it.len();
        "FieldNames::is_empty" => it.is_empty();
        "FieldNames::get" => it.get(at).cloned();
        "FieldNames::index" => (at < it.len()).then(|| it[at].clone());
        "FieldNames::iter" => it.iter().cloned().collect::<Vec<_>>();
        "FieldNames::into_iter" => it.clone().into_iter().collect::<Vec<_>>();
        "FieldNames::find" => it.find(&sought);
        "FieldNames::to_string" => it.to_string();
        "FieldNames::eq" => it == other;
        "FieldNames::eq(&[&str])" => it == &texts[..];
        "FieldNames::hash" => hash_of(&it) == hash_of(&other);
    }
    let here: Vec<&str> = names.iter().map(String::as_str).collect();
    same! { round, about();
        "FieldNames::from_texts" => ours::FieldNames::from_texts(&here), their_list(&there);
        "eq_texts" => list(&names).eq_texts(&texts), their_list(&there) == &texts[..];
    }
}
