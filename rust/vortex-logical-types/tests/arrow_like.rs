// SPDX-License-Identifier: Apache-2.0
// SPDX-FileCopyrightText: Copyright the Vortex contributors

//! Types that are written to Arrow in the forms of another schema.
#![cfg(feature = "arrow")]
#![allow(unsafe_code, reason = "a producer of Arrow's structs is C")]

mod arrow_fields;

use arrow_fields::{Field, field, shown};
use vortex_logical_types::Nullability::NonNullable;
use vortex_logical_types::arrow::{ArrowSchema, FieldMetadata};
use vortex_logical_types::{DType, Error};

fn dtype(text: &str) -> DType {
    text.parse()
        .unwrap_or_else(|error| panic!("{text}: {error}"))
}

fn leaf(format: &str, name: &str) -> Field {
    field(format, name, vec![])
}

fn nullable(it: Field) -> Field {
    Field { flags: 2, ..it }
}

/// A dictionary with these values.
fn dictionary(format: &str, name: &str, values: Field) -> Field {
    Field {
        values: Some(Box::new(values)),
        ..leaf(format, name)
    }
}

/// A struct with a field of each form.
fn every_form() -> Field {
    let entries = field(
        "+s",
        "key_value",
        vec![leaf("U", "k"), nullable(leaf("vz", "v"))],
    );
    let runs = vec![leaf("s", "run_ends"), nullable(leaf("U", "values"))];
    let inner = field("+s", "", vec![nullable(leaf("vu", "x"))]);
    field(
        "+s",
        "",
        vec![
            leaf("U", "large"),
            nullable(leaf("vu", "view")),
            leaf("Z", "bytes"),
            leaf("d:9,2,32", "narrow"),
            leaf("d:10,2,256", "wide"),
            field("+L", "list", vec![nullable(leaf("i", "element"))]),
            nullable(field("+vl", "listview", vec![leaf("U", "item")])),
            field("+w:3", "fixed", vec![leaf("vz", "x")]),
            field("+w:16", "uuid", vec![leaf("C", "byte")]),
            leaf("w:4", "four"),
            Field {
                flags: 4,
                ..field("+m", "map", vec![entries])
            },
            field("+ud:5,9", "dense", vec![leaf("U", "a"), leaf("i", "b")]),
            Field {
                flags: 3,
                ..dictionary("c", "codes", leaf("U", ""))
            },
            dictionary("I", "twice", dictionary("C", "", inner)),
            field("+r", "runs", runs),
            nullable(leaf("tsn:UTC", "when")),
            leaf("tDs", "how long"),
            nullable(leaf("n", "nothing")),
            Field {
                pairs: vec![("ARROW:extension:name", "x.tag")],
                ..dictionary("i", "tagged", leaf("U", ""))
            },
        ],
    )
}

#[test]
fn what_was_read_is_written_in_its_own_forms() -> Result<(), Error> {
    let original = every_form().schema();
    let (read, metadata) = DType::from_arrow_with_metadata(original)?;
    assert_eq!(metadata, []);
    let written = read.to_arrow_like(original, &[])?;
    assert_eq!(shown(&written), shown(original));
    assert_eq!(DType::from_arrow(&written)?, read);
    let copied = original.try_clone()?;
    assert_eq!(shown(&copied), shown(original));
    drop(written);
    // Each alone, as the outermost field.
    for (at, child) in every_form().children.into_iter().enumerate() {
        let child = Field {
            name: String::new(),
            ..child
        }
        .schema();
        let read = DType::from_arrow(child)?;
        let written = read.to_arrow_like(child, &[])?;
        assert_eq!(shown(&written), shown(child), "the child {at}");
        assert_eq!(DType::from_arrow(&written)?, read);
    }
    Ok(())
}

#[test]
fn a_part_that_differs_has_its_default_form() -> Result<(), Error> {
    let original = every_form().schema();
    for (text, written) in [
        ("{large=binary, view=utf8}", "+s  0 [z large 0; vu view 0]"),
        // Fields are found by their names.
        (
            "{bytes=binary?, large=utf8, none=utf8}?",
            "+s  2 [Z bytes 2; U large 0; u none 0]",
        ),
        (
            "{wide=decimal(10,3), narrow=decimal(9,2)?}",
            "+s  0 [d:10,3 wide 0; d:9,2,32 narrow 2]",
        ),
        (
            "{list=list(utf8), listview=list(list(utf8?))}",
            "+s  0 [+L list 0 [u element 0]; +vl listview 0 [+l item 0 [u item 2]]]",
        ),
        (
            "{fixed=fixed_size_list(binary)[4]}",
            "+s  0 [+w:4 fixed 0 [z item 0]]",
        ),
        (
            "{uuid=fixed_size_list(u8?)[16], four=fixed_size_list(u8)[5]}",
            "+s  0 [+w:16 uuid 0 [C byte 2]; w:5 four 0]",
        ),
        (
            "{dense=union(a@5=utf8, b@8=i32)}",
            "+s  0 [+us:5,8 dense 0 [u a 0; i b 0]]",
        ),
        (
            "{dense=union(c@5=utf8, b@9=i32?)}",
            "+s  0 [+ud:5,9 dense 0 [u c 0; i b 2]]",
        ),
        (
            "{map=map(utf8, i32, keys_sorted=false)}",
            "+s  0 [+m map 0 [+s key_value 0 [U k 0; i v 0]]]",
        ),
        (
            "{codes=i32, twice={x=i8}}",
            "+s  0 [c codes 1 -> i  0; I twice 0 -> C  0 -> +s  0 [c x 0]]",
        ),
        (
            "{runs=utf8}",
            "+s  0 [+r runs 0 [s run_ends 0; U values 0]]",
        ),
        (
            "{when=vortex.timestamp[0x030000](i64)}",
            "+s  0 [tss: when 0]",
        ),
        ("list(utf8)", "+l  0 [u item 0]"),
    ] {
        let made = dtype(text).to_arrow_like(original, &[])?;
        assert_eq!(shown(&made), written, "{text}");
        assert_eq!(DType::from_arrow(&made)?, dtype(text));
    }
    // Of two fields with one name each has the form of the one at its position.
    let twice = field(
        "+s",
        "",
        vec![leaf("U", "a"), leaf("vu", "a"), leaf("u", "b")],
    )
    .schema();
    let made = dtype("{a=utf8, a=utf8, b=utf8, a=utf8}").to_arrow_like(twice, &[])?;
    assert_eq!(shown(&made), "+s  0 [U a 0; vu a 0; u b 0; U a 0]");
    Ok(())
}

/// Forms that would make more than 300 fields inside one another aren't taken, so that what is written can be read.
#[test]
fn forms_that_are_nested_too_deeply_are_left_out() -> Result<(), Error> {
    let deep = (0..127).fold(dtype("{x=u8}"), |it, _| DType::list(it, NonNullable));
    let dictionaries = |count| {
        let inner = (0..127).fold(field("+s", "", vec![leaf("i", "y")]), |it, _| {
            field("+L", "item", vec![it])
        });
        (0..count)
            .fold(inner, |it, _| dictionary("i", "", it))
            .schema()
    };
    for (count, format) in [(171, "i  0 -> i  0"), (170, "i  0 -> i  0")] {
        let made = deep.to_arrow_like(dictionaries(count), &[])?;
        assert_eq!(DType::from_arrow(&made)?, deep);
        assert!(shown(&made).starts_with(format), "{count}");
    }
    let narrow = (0..200)
        .fold(leaf("u", ""), |it, _| dictionary("i", "", it))
        .schema();
    let made = deep.to_arrow_like(narrow, &[])?;
    assert_eq!(
        (shown(&made).starts_with("+l"), DType::from_arrow(&made)?),
        (true, deep)
    );
    Ok(())
}

/// Numbers that look random (xorshift).
struct Random(u64);

impl Random {
    fn below(&mut self, count: usize) -> usize {
        self.0 ^= self.0 << 13;
        self.0 ^= self.0 >> 7;
        self.0 ^= self.0 << 17;
        usize::try_from(self.0 >> 33).expect("31 bits") % count
    }

    fn flags(&mut self) -> i64 {
        [0, 2][self.below(2)]
    }

    /// A field that can be read, in a random form.
    fn field(&mut self, name: &str, depth: usize) -> Field {
        const LEAVES: [&str; 28] = [
            "b",
            "c",
            "C",
            "s",
            "i",
            "L",
            "e",
            "g",
            "u",
            "U",
            "vu",
            "z",
            "Z",
            "vz",
            "w:0",
            "w:5",
            "d:9,2",
            "d:9,2,32",
            "d:9,2,64",
            "d:40,-1,256",
            "tdD",
            "tdm",
            "tts",
            "ttn",
            "tss:",
            "tsn:UTC",
            "tDs",
            "tin",
        ];
        let flags = self.flags();
        let kind = if depth == 0 { 0 } else { self.below(9) };
        let mut made = match kind {
            1 => field(
                ["+l", "+L", "+vl", "+vL"][self.below(4)],
                name,
                vec![self.field("of", depth - 1)],
            ),
            2 => field(
                ["+w:2", "+w:0"][self.below(2)],
                name,
                vec![self.field("of", depth - 1)],
            ),
            3 => {
                let names = ["a", "b", "a", "", "c"];
                let children = (0..self.below(5)).map(|at| self.field(names[at], depth - 1));
                field("+s", name, children.collect())
            }
            4 => {
                let key = Field {
                    flags: 0,
                    ..self.key("k")
                };
                let value = self.field("v", depth - 1);
                field("+m", name, vec![field("+s", "kv", vec![key, value])])
            }
            5 => {
                let children = vec![self.field("x", depth - 1), self.field("y", depth - 1)];
                field(["+us:3,9", "+ud:3,9"][self.below(2)], name, children)
            }
            6 => dictionary(
                ["c", "I", "l"][self.below(3)],
                name,
                self.field("", depth - 1),
            ),
            7 => {
                let ends = leaf(["s", "i"][self.below(2)], "run_ends");
                field("+r", name, vec![ends, self.field("values", depth - 1)])
            }
            8 => nullable(leaf("n", name)),
            _ => leaf(LEAVES[self.below(LEAVES.len())], name),
        };
        if kind != 8 {
            made.flags = flags;
        }
        if kind == 4 {
            made.flags |= [0, 4][self.below(2)];
        }
        if kind == 6 {
            made.flags |= [0, 1][self.below(2)];
        }
        made
    }

    /// The key of a map, which can't be null.
    fn key(&mut self, name: &str) -> Field {
        match self.below(3) {
            0 => dictionary("c", name, leaf("U", "")),
            _ => leaf(["u", "U", "i", "vz"][self.below(4)], name),
        }
    }
}

/// A null type is nullable whatever its field says, so what is in a dictionary or has run ends may get that flag.
fn has_null(text: &str) -> bool {
    text.starts_with("n ") || ["[n ", "; n ", "> n "].iter().any(|it| text.contains(it))
}

/// Random schemas are written as they were read, and random types in forms of other types are read back.
#[test]
fn random_schemas_are_written_in_their_own_forms() -> Result<(), Error> {
    let mut random = Random(1);
    let mut last = dtype("i8");
    let (mut same, mut of_others) = (0, 0);
    for _ in 0..5_000 {
        let original = random.field("", 4).schema();
        let read = DType::from_arrow(original)?;
        let written = read.to_arrow_like(original, &[])?;
        assert_eq!(DType::from_arrow(&written)?, read);
        if !has_null(&shown(original)) {
            assert_eq!(shown(&written), shown(original), "{read}");
            same += 1;
        }
        let other = if read.can_be_nonnullable() {
            read.as_nonnullable()
        } else {
            last
        };
        for it in [&other, &read.as_nullable()] {
            let written = it.to_arrow_like(original, &[])?;
            assert_eq!(DType::from_arrow(&written)?, *it);
            let default = it.to_arrow()?;
            of_others += usize::from(shown(&written) != shown(&default));
        }
        last = read;
    }
    assert!(same > 3_000 && of_others > 3_000, "{same} {of_others}");
    Ok(())
}

#[test]
fn metadata_is_written_beside_the_forms() -> Result<(), Error> {
    let original = every_form().schema();
    let read = DType::from_arrow(original)?;
    let about = |path: &[&str]| FieldMetadata {
        path: path.iter().map(|&step| step.to_owned()).collect(),
        key: b"k".to_vec(),
        value: path.concat().into_bytes(),
    };
    let metadata: Vec<_> = [
        &[][..],
        &["large"],
        &["list"],
        &["list", "item"],
        &["map", "entries"],
        &["map", "entries", "value"],
        &["dense", "b"],
        &["codes"],
        &["twice", "x"],
        &["runs"],
        &["tagged"],
    ]
    .into_iter()
    .map(about)
    .collect();
    let made = read.to_arrow_like(original, &metadata)?;
    assert_eq!(shown(&made), shown(original));
    assert_eq!(
        DType::from_arrow_with_metadata(&made)?,
        (read.clone(), metadata)
    );
    let error = read
        .to_arrow_like(original, &[about(&["none"])])
        .unwrap_err();
    assert!(error.to_string().contains("no such field"), "{error}");
    let error = read.to_arrow_like(&ArrowSchema::empty(), &[]).unwrap_err();
    assert_eq!(error.to_string(), "the schema was released");
    Ok(())
}
