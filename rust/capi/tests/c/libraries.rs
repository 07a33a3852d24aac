// SPDX-License-Identifier: Apache-2.0
// SPDX-FileCopyrightText: Copyright the Vortex contributors

//! What is installed: which symbols the libraries have, what they need, how large they are, and that programs are built over
//! them with pkg-config and with `CMake`.

use crate::common::{archive, compiled, has, prefix, room, shared, sources, succeeds};
use std::collections::BTreeSet;
use std::fs;
use std::process::Command;

/// What the example prints.
const SHOWN: &str = "customer.city = utf8?\n{customer={city=utf8?}, lines=list({sku=utf8})}\n";

/// What `example_tree.c` prints without an argument.
const TREE: &str = "\
struct
  id: u64
  customer: struct
    city: utf8?
  lines: list
    []: struct
      sku: utf8
      price: decimal(10,2)?
";

/// How large the shared library may be, and what a program gets of the static library.
const MOST_BYTES: u64 = 1_500_000;

const CMAKE: &str = "cmake_minimum_required(VERSION 3.13)
project(example C)
find_package(vortex_logical_types REQUIRED CONFIG)
foreach(kind shared static)
  add_executable(example_${kind} ${SOURCE})
  target_link_libraries(example_${kind} vortex_logical_types::${kind})
endforeach()
";

// The functions that the header declares.
fn declared() -> BTreeSet<String> {
    let header = fs::read_to_string(sources().join("vortex_logical_types.h"));
    let header = header.expect("the header can be read");
    let lines = header
        .lines()
        .filter(|line| line.starts_with(['V', 'c', 'u', 'v']));
    let names = lines.filter_map(|line| line.split_once('(')?.0.rsplit([' ', '*']).next());
    names
        .filter(|name| name.starts_with("vlt_"))
        .map(str::to_owned)
        .collect()
}

// The symbols that other objects see.
fn visible(arguments: &[&str], file: &std::path::Path) -> BTreeSet<String> {
    let said = succeeds(Command::new("nm").args(arguments).arg(file));
    let names = said.lines().filter_map(|line| {
        let mut words = line.split(' ').skip(1);
        words.next()?;
        words.next()
    });
    names.map(str::to_owned).collect()
}

#[test]
fn the_shared_library_has_the_functions_of_the_header() {
    let found = visible(&["-D", "--defined-only"], &shared());
    assert!(found.len() > 100);
    assert_eq!(found, declared());
}

#[test]
fn the_static_library_has_these_and_the_heap() {
    let mut wanted = declared();
    wanted.extend(["rattle_alloc", "rattle_realloc", "rattle_dealloc"].map(str::to_owned));
    let found = visible(&["--extern-only", "--defined-only"], &archive());
    assert_eq!(found, wanted);
}

#[test]
fn the_shared_library_needs_the_c_library_alone() {
    let said = succeeds(Command::new("readelf").arg("-dW").arg(shared()));
    for line in said.lines().filter(|line| line.contains("(NEEDED)")) {
        let is_of_c = line.contains("[libc.so") || line.contains("[ld-linux");
        assert!(is_of_c, "{line}");
    }
    let version = succeeds(
        Command::new("grep")
            .arg("#define VLT_ABI_VERSION")
            .arg(sources().join("vortex_logical_types.h")),
    );
    let version = version
        .trim()
        .rsplit(' ')
        .next()
        .map_or("", |word| word.trim_end_matches('u'));
    assert!(said.contains(&format!("soname: [libvortex_logical_types.so.{version}]")));
    assert!(
        said.contains("NODELETE") && said.contains("BIND_NOW"),
        "{said}"
    );
    assert!(!said.contains("TEXTREL"), "{said}");
    let segments = succeeds(Command::new("readelf").arg("-lW").arg(shared()));
    assert!(segments.contains("GNU_RELRO"), "{segments}");
}

#[test]
fn a_program_gets_few_bytes() {
    if cfg!(debug_assertions) {
        return;
    }
    let length = |file| fs::metadata(file).expect("the file is there").len();
    assert!(length(shared()) <= MOST_BYTES);
    let program = compiled("example", &["cc"], &["-std=c99", "-s"], &["example.c"]);
    assert!(length(program.clone()) <= MOST_BYTES);
    let said = succeeds(Command::new("readelf").arg("-dW").arg(program));
    assert!(!said.contains("libgcc_s"), "{said}");
}

#[test]
fn a_program_prints_a_type_as_a_tree() {
    let program = compiled("example_tree", &["cc"], &["-std=c99"], &["example_tree.c"]);
    assert_eq!(succeeds(&mut Command::new(&program)), TREE);
    let mut run = Command::new(program);
    let said = succeeds(run.arg("list({\"\"=map(utf8, i8, keys_sorted=true)?}?)?"));
    assert_eq!(
        said,
        "list?\n  []: struct?\n    : map(utf8, i8, keys_sorted=true)?\n"
    );
}

#[test]
fn each_measured_call_is_done() {
    let program = compiled("measure", &["cc"], &["-std=c99"], &["tests/measure.c"]);
    let names = succeeds(&mut Command::new(&program));
    assert_eq!(names.lines().count(), 20);
    for name in names.lines() {
        succeeds(Command::new(&program).args([name, "2"]));
    }
}

#[test]
fn programs_are_built_with_pkg_config() {
    if !has("pkg-config", "the file for pkg-config") {
        return;
    }
    let mut ask = Command::new("pkg-config");
    ask.args(["--cflags", "--libs", "vortex_logical_types"]);
    let said = succeeds(ask.env("PKG_CONFIG_PATH", prefix().join("lib/pkgconfig")));
    let program = room().join("example_pkg_config");
    let mut compile = Command::new("cc");
    compile
        .arg(sources().join("example.c"))
        .args(said.split_whitespace());
    succeeds(compile.arg("-o").arg(&program));
    let mut run = Command::new(program);
    run.env("LD_LIBRARY_PATH", prefix().join("lib"));
    assert_eq!(succeeds(&mut run), SHOWN);
}

#[test]
fn programs_are_built_with_cmake() {
    if !has("cmake", "the package for CMake") {
        return;
    }
    let (source, build) = (room().join("cmake"), room().join("cmake/build"));
    fs::create_dir_all(&build).expect("the folder can be made");
    fs::write(source.join("CMakeLists.txt"), CMAKE).expect("the file can be written");
    let mut configure = Command::new("cmake");
    configure.arg("-S").arg(&source).arg("-B").arg(&build);
    configure.arg(format!(
        "-DSOURCE={}",
        sources().join("example.c").display()
    ));
    succeeds(configure.arg(format!("-DCMAKE_PREFIX_PATH={}", prefix().display())));
    succeeds(Command::new("cmake").arg("--build").arg(&build));
    for kind in ["shared", "static"] {
        let mut run = Command::new(build.join(format!("example_{kind}")));
        assert_eq!(succeeds(&mut run), SHOWN);
    }
}
