// SPDX-License-Identifier: Apache-2.0
// SPDX-FileCopyrightText: Copyright the Vortex contributors

//! Each function of `rattle_std` that allocates, with each of its allocations refused in turn: the error comes back,
//! nothing is left of the call, and the value is as its page says. And what the functions return that are written there.

mod refusing;

use refusing::{each_refused, each_refused_on, in_use};
use std::cmp::Reverse;
use std::collections::hash_map::DefaultHasher;
use std::fmt;
use std::hash::{Hash, Hasher};
use std::panic::{AssertUnwindSafe, catch_unwind, resume_unwind};
use vortex_logical_types::rattle_std::alloc::{AllocError, AllocFailed};
use vortex_logical_types::rattle_std::collections::{BTreeMap, HashMap, HashSet};
use vortex_logical_types::rattle_std::display_ext::DisplayExt;
use vortex_logical_types::rattle_std::iter_ext::IterExt;
use vortex_logical_types::rattle_std::rc::{Rc, RcStr};
use vortex_logical_types::rattle_std::string::{self, String};
use vortex_logical_types::rattle_std::strsim::osa_distance;
use vortex_logical_types::rattle_std::vec::Vec;
use vortex_logical_types::{format_in, rattle_std, vec_in};

/// A vector of these texts, each of which is allocated.
fn texts(all: &[&str]) -> Vec<String> {
    all.iter()
        .map(|text| String::from_str(text).unwrap())
        .collect_in()
        .unwrap()
}

/// A full vector of numbers.
fn full() -> Vec<u64> {
    let numbers = Vec::from_slice(&[3, 1, 2]).unwrap();
    let numbers = numbers.into_inner().into_boxed_slice().into_vec();
    assert_eq!(numbers.capacity(), 3);
    Vec::from(numbers)
}

#[test]
fn a_new_vector() {
    assert_eq!(
        each_refused(|| Vec::<u64>::with_capacity(8)),
        (Vec::new(), 1)
    );
    assert_eq!(
        each_refused(|| vec_in![String::new(), String::new()]),
        (texts(&["", ""]), 1)
    );
    assert_eq!(each_refused(|| vec_in![7_u8; 3]).0.into_inner(), [7, 7, 7]);
    assert_eq!(each_refused(|| vec_in![7_u8; 3]).1, 1);
    assert_eq!(each_refused(|| Vec::from_slice(&[3, 1, 2])), (full(), 1));
    let odd = || (0..100_u64).filter(|n| n % 2 == 1).collect_in::<Vec<u64>>();
    let (numbers, count) = each_refused(odd);
    assert!(numbers.iter().copied().eq((0..50).map(|n| 2 * n + 1)) && count > 1);
    assert_eq!(Vec::<u64>::with_capacity(usize::MAX), Err(AllocError));
    let none: Vec<u64> = vec_in![].unwrap();
    assert!(none.is_empty() && format!("{:?} {none:?}", full()) == "[3, 1, 2] []");
}

#[test]
fn a_vector_that_grows() {
    let same = |numbers: &Vec<u64>| numbers == &full();
    assert_eq!(
        each_refused_on(full, |v| v.reserve(1), same),
        (((), full()), 1)
    );
    assert_eq!(
        each_refused_on(full, |v| v.push(5), same).0.1.as_slice(),
        [3, 1, 2, 5]
    );
    let more = each_refused_on(full, |v| v.extend_from_slice(&[5, 6]), same);
    assert!(more.0.1.as_slice() == [3, 1, 2, 5, 6] && more.1 == 1);
    let more = each_refused_on(full, |v| v.resize(5, 9), same);
    assert!(more.0.1.as_slice() == [3, 1, 2, 9, 9] && more.1 == 1);
    assert_eq!(each_refused_on(full, |v| v.resize(1, 9), same).1, 0);
    assert_eq!(full().reserve(usize::MAX), Err(AllocError));
}

#[test]
fn an_element_comes_back() {
    let make = || (texts(&["a", "b"]), Some(String::from_str("c").unwrap()));
    let push = |(all, item): &mut (Vec<String>, Option<String>)| {
        all.push(item.take().unwrap())
            .map_err(|AllocFailed(back)| *item = Some(back))
    };
    let kept = |(all, item): &(Vec<String>, Option<String>)| {
        all.len() == 2 && item.as_deref() == Some("c")
    };
    let (((), (all, _)), count) = each_refused_on(make, push, kept);
    assert!(all == texts(&["a", "b", "c"]) && count == 1);
}

#[test]
fn what_needs_no_memory() {
    let mut numbers = full();
    assert!(numbers.pop() == Some(2) && numbers.as_slice() == [3, 1]);
    numbers.push_reserved(4);
    assert!(numbers.remove(0) == 3 && numbers.as_slice() == [1, 4]);
    numbers.retain(|n| *n > 1);
    assert!(numbers.as_slice() == [4] && (&numbers).into_iter().eq([&4]));
    (&mut numbers).into_iter().for_each(|n| *n += 1);
    assert!(numbers[0] == 5 && numbers.into_iter().eq([5]));
    let mut numbers = full();
    numbers.truncate(1);
    assert_eq!(numbers.as_slice(), [3]);
    numbers.clear();
    assert_eq!((numbers.is_empty(), numbers.pop()), (true, None));
}

#[test]
fn a_vector_that_is_sorted() {
    let (((), sorted), count) = each_refused_on(full, Vec::sort, |v| v == &full());
    assert!(sorted.as_slice() == [1, 2, 3] && count == 1);
    let by_text = each_refused_on(
        || texts(&["b", "a"]),
        Vec::sort,
        |v| v == &texts(&["b", "a"]),
    );
    assert_eq!((by_text.0.1, by_text.1), (texts(&["a", "b"]), 1));
    // (against Rust's, with many equal keys, where another order of equal elements would be seen)
    let mut state = 1_u64;
    for len in 0..200 {
        let mut numbers = std::vec::Vec::new();
        for position in 0..len {
            state = state
                .wrapping_mul(6_364_136_223_846_793_005)
                .wrapping_add(1_442_695_040_888_963_407);
            numbers.push((state >> 60, position));
        }
        let mut ours = Vec::from(numbers.clone());
        numbers.sort_by_key(|(key, _)| Reverse(*key));
        ours.sort_by(|(a, _), (b, _)| b.cmp(a)).unwrap();
        assert_eq!(ours.into_inner(), numbers);
    }
}

/// Panics, without the message, which would allocate what it keeps.
fn unwind() -> ! {
    resume_unwind(Box::new(()))
}

#[test]
fn a_comparison_that_panics_leaves_the_elements() {
    let before = in_use();
    let mut all = texts(&["c", "a", "b", "a"]);
    let sorted = catch_unwind(AssertUnwindSafe(|| all.sort_by(|_, _| unwind())));
    assert!(sorted.is_err() && all == texts(&["c", "a", "b", "a"]));
    drop((sorted, all));
    assert_eq!(in_use(), before);
}

#[test]
fn a_new_text() {
    let name = "name";
    assert_eq!(
        each_refused(|| String::from_str(name)),
        (String::from_str(name).unwrap(), 1)
    );
    let (text, count) =
        each_refused(|| format_in!("{name} = {:>3}, {:?}", 5, Some("a longer text")));
    assert!(text.as_str() == "name =   5, Some(\"a longer text\")" && count > 1);
    assert_eq!(each_refused(|| string::format(format_args!("a"))).1, 1);
    assert_eq!(
        each_refused(|| 1_234_u64.to_string_in()),
        (String::from_str("1234").unwrap(), 1)
    );
    assert_eq!(each_refused(|| name.to_string_in()).0.into_inner(), name);
    assert_eq!(
        format!("{text:?} {:>6}|", String::from_str("é").unwrap()),
        format!("{:?}      é|", text.as_str())
    );
    assert_eq!(
        String::from_utf8(Vec::from_slice(b"\xff").unwrap())
            .unwrap_err()
            .as_bytes(),
        b"\xff"
    );
    assert_eq!(each_refused(|| String::from_utf8(Vec::new())).1, 0);
}

#[test]
fn bytes_that_are_not_utf8_are_replaced() {
    let parts: [&[u8]; 8] = [
        b"",
        b"a",
        b"\xc3",
        b"\xa9",
        b"\xf0\x9f",
        b"\x98\x80",
        b"\xff",
        b"\xed\xa0\x80",
    ];
    for first in parts {
        for second in parts {
            for third in parts {
                let bytes = [first, second, third].concat();
                let wanted = std::string::String::from_utf8_lossy(&bytes).into_owned();
                assert_eq!(String::from_utf8_lossy(&bytes).unwrap().as_str(), wanted);
            }
        }
    }
    let (text, count) = each_refused(|| String::from_utf8_lossy(b"ab\xffcdefghijklmnop\xff"));
    assert!(text.as_str() == "ab\u{fffd}cdefghijklmnop\u{fffd}" && count > 1);
}

#[test]
fn a_text_that_grows() {
    let make = || {
        String::from(
            std::string::String::from("abc")
                .into_boxed_str()
                .into_string(),
        )
    };
    let same = |text: &String| text.as_str() == "abc";
    assert_eq!(
        each_refused_on(make, |t| t.push_str("de"), same)
            .0
            .1
            .as_str(),
        "abcde"
    );
    assert_eq!(each_refused_on(make, |t| t.push_str("de"), same).1, 1);
    assert_eq!(
        each_refused_on(make, |t| t.push('é'), same).0.1.as_str(),
        "abcé"
    );
    assert_eq!(each_refused_on(make, |t| t.push('é'), same).1, 1);
    // (after an error `write!` leaves what it wrote before it)
    let begins =
        |text: &String| "abc12345678901".starts_with(text.as_str()) && text.starts_with("abc");
    let (((), text), count) =
        each_refused_on(make, |t| write!(t, "{}{}{}", 12_345, 67_890, 1), begins);
    assert!(text.as_str() == "abc12345678901" && count >= 1);
    assert_eq!(
        each_refused_on(make, |t| fmt::Write::write_str(t, "de"), same).1,
        1
    );
}

#[test]
fn a_value_comes_back_from_its_box() {
    let make = || Some(String::from_str("a").unwrap());
    let kept = |text: &Option<String>| text.as_deref() == Some("a");
    let put_in_box = |text: &mut Option<String>| {
        rattle_std::boxed::new(text.take().unwrap()).map_err(|AllocFailed(back)| *text = Some(back))
    };
    let ((boxed, _), count) = each_refused_on(make, put_in_box, kept);
    assert!(rattle_std::boxed::into_inner(boxed).as_str() == "a" && count == 1);
    let share = |text: &mut Option<String>| {
        Rc::new(text.take().unwrap()).map_err(|AllocFailed(back)| *text = Some(back))
    };
    let ((shared, _), count) = each_refused_on(make, share, kept);
    assert!(shared.as_str() == "a" && count == 1);
    // (of a value without size nothing is allocated, and it is dropped once)
    assert_eq!(
        each_refused(|| rattle_std::boxed::new(())),
        (Box::new(()), 0)
    );
    assert_eq!(
        AllocError::from(AllocFailed(1)).to_string(),
        "memory allocation failed"
    );
}

#[test]
fn maps_and_sets() {
    let make = || {
        (0..28)
            .map(|n| (n, n))
            .fold(HashMap::new(), |mut map, (k, v)| {
                map.insert(k, v).unwrap();
                map
            })
    };
    let full = make().capacity() == 28;
    let same =
        |map: &HashMap<i32, i32>| map.len() == 28 && (0..28).all(|n| map.get(&n) == Some(&n));
    let ((replaced, map), count) = each_refused_on(make, |map| map.insert(28, 5), same);
    assert!(
        full && replaced.is_none() && map.get(&28) == Some(&5) && map.len() == 29 && count == 1
    );
    let mut map = map;
    assert_eq!(map.insert(28, 6).unwrap(), Some(5));
    assert_eq!(each_refused(|| HashMap::<u8, u8>::with_capacity(5)).1, 1);
    let (set, count) = each_refused(|| (0..100).map(|n| n % 50).collect_in::<HashSet<i32>>());
    assert!(set.len() == 50 && set.contains(&49) && !set.contains(&50) && count == 1);
    let even = || (0..100).filter(|n| n % 2 == 0);
    let (set, count) = each_refused(|| even().collect_in::<HashSet<i32>>());
    assert!(set.len() == 50 && set.contains(&98) && !set.contains(&49) && count > 1);
}

/// Inserts the keys in turn into an ordered map and into one of Rust's library, and compares the two.
fn compare_ordered_maps(keys: impl IntoIterator<Item = u64>) {
    let mut ours = BTreeMap::new();
    let mut rusts = std::collections::BTreeMap::new();
    for (value, key) in keys.into_iter().enumerate() {
        assert_eq!(ours.get(&key), rusts.get(&key));
        assert_eq!(ours.insert(key, value).unwrap(), rusts.insert(key, value));
    }
    assert!(ours.iter().eq(&rusts) && ours.values().eq(rusts.values()));
    assert!(ours.len() == rusts.len() && ours.is_empty() == rusts.is_empty());
    assert!(
        ours.get(&u64::MAX).is_none() && rusts.keys().all(|key| ours.get(key) == rusts.get(key))
    );
}

#[test]
fn an_ordered_map() {
    for count in [0, 1, 31, 32, 63, 1_000, 40_000] {
        compare_ordered_maps(0..count);
        compare_ordered_maps((0..count).rev());
        let next = |state: &u64| {
            Some(
                state
                    .wrapping_mul(6_364_136_223_846_793_005)
                    .wrapping_add(1_442_695_040_888_963_407),
            )
        };
        let random = std::iter::successors(Some(1_u64), next).map(|state| state >> 52);
        compare_ordered_maps((0..count).zip(random).map(|(_, key)| key));
    }
}

#[test]
fn an_ordered_map_is_unchanged_if_it_cannot_grow() {
    // (31 entries fill one block, and of 47 that come in this order 31 fill the first leaf of a tree)
    for (count, least) in [(4, 1), (31, 4), (47, 1)] {
        let make = || {
            (0..count).rev().fold(BTreeMap::new(), |mut map, n| {
                map.insert(n, n).unwrap();
                map
            })
        };
        let same = |map: &BTreeMap<i32, i32>| {
            map.iter()
                .map(|(&k, &v)| (k, v))
                .eq((0..count).map(|n| (n, n)))
        };
        let ((before, map), refused) = each_refused_on(make, |map| map.insert(-1, 7), same);
        assert!(before.is_none() && map.values().copied().eq([7].into_iter().chain(0..count)));
        assert!(refused >= least, "{count}: {refused}");
    }
}

#[test]
fn the_distance_of_two_words() {
    let words = [
        "", "a", "ab", "ba", "abc", "ca", "acb", "in32", "i32", "utf8", "uft8", "né", "én",
        "decimal", "dceimla",
    ];
    for a in words {
        for b in words {
            assert_eq!(
                osa_distance(a, b),
                Ok(strsim::osa_distance(a, b)),
                "{a} and {b}"
            );
        }
    }
    assert_eq!(each_refused(|| osa_distance("in32", "i32")), (1, 3));
}

#[test]
fn pointers_are_as_their_values() {
    let (text, count) = each_refused(|| RcStr::from_str("naïve"));
    let other = RcStr::from_str("naïve").unwrap();
    let greater = RcStr::from_str("nb").unwrap();
    let hash = |value: &dyn Fn(&mut DefaultHasher)| {
        let mut hasher = DefaultHasher::new();
        value(&mut hasher);
        hasher.finish()
    };
    assert!(
        count == 1
            && text == other
            && !Rc::ptr_eq(&text, &other)
            && text != greater
            && other < greater
    );
    assert!(Rc::ptr_eq(&text, &text.clone().unwrap()) && Rc::ptr_eq(&text, &Clone::clone(&text)));
    assert_eq!(hash(&|h| text.hash(h)), hash(&|h| "naïve".hash(h)));
    assert_eq!(
        format!("{text:?} {text:>6} {}", text.as_str()),
        "\"naïve\"  naïve naïve"
    );
    for len in 0..40 {
        let long = "x".repeat(len);
        let before = in_use();
        assert_eq!(RcStr::from_str(&long).unwrap().as_str(), long);
        assert_eq!(in_use(), before, "the block is freed with another layout");
    }
    let numbers = Rc::new(full()).unwrap();
    assert!(
        numbers == Rc::new(full()).unwrap()
            && numbers > Rc::new(Vec::from_slice(&[3, 1]).unwrap()).unwrap()
    );
    assert_eq!(hash(&|h| numbers.hash(h)), hash(&|h| [3_u64, 1, 2].hash(h)));
    assert_eq!(format!("{numbers:?}"), "[3, 1, 2]");
}

/// A value that can't be compared.
#[derive(Eq)]
struct Uncompared;

impl PartialEq for Uncompared {
    fn eq(&self, _: &Self) -> bool {
        unreachable!("the pointers are equal")
    }
}

#[test]
fn values_at_the_same_place_are_equal_at_once() {
    let value = Rc::new(Uncompared).ok().unwrap();
    assert!(value == Clone::clone(&value));
}

#[test]
fn only_the_only_pointer_is_unwrapped() {
    let before = in_use();
    let first = Rc::new(full()).unwrap();
    let second = first.clone().unwrap();
    let first = Rc::try_unwrap(first).expect_err("there are two");
    drop(second);
    assert_eq!(Rc::try_unwrap(first).expect("there is one"), full());
    assert_eq!(in_use(), before);
}

/// Panics when it is dropped.
struct Panics(#[allow(dead_code, reason = "it is freed")] String);

impl Drop for Panics {
    fn drop(&mut self) {
        unwind();
    }
}

#[test]
fn a_drop_that_panics_frees_the_block() {
    let before = in_use();
    let first = Rc::new(Panics(String::from_str("a").unwrap()))
        .ok()
        .unwrap();
    let second = Clone::clone(&first);
    drop(first);
    let dropped = catch_unwind(AssertUnwindSafe(|| drop(second)));
    assert!(dropped.is_err());
    drop(dropped);
    assert_eq!(in_use(), before);
}
