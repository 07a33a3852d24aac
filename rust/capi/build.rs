// SPDX-License-Identifier: Apache-2.0
// SPDX-FileCopyrightText: Copyright the Vortex contributors

//! Erases the exported functions into `OUT_DIR`, compiles the layer of C over them, and makes the folder `capi` beside the
//! libraries that Cargo builds: the header, the files for pkg-config and `CMake`, and links to the libraries.

#[path = "build/header.rs"]
mod header;

use erase::{LIBRARIES, Layout, erase_texts, sources_in, write_modules};
use header::{Function, abi_version, functions_in};
use std::env;
use std::error::Error;
use std::fs;
use std::path::{Path, PathBuf};
use std::process::Command;

type Result<T> = std::result::Result<T, Box<dyn Error>>;

// The crates of the exports, and the files of `c_objects` that `src/c_objects.rs` replaces because they have pointers.
const EXPORTS: [&str; 3] = ["c_objects", "c_nodes", "vortex_logical_types"];
const BY_HAND: [&str; 3] = [
    "c_objects/src/lib.rt",
    "c_objects/src/loose.rt",
    "c_objects/src/slot.rt",
];

// The functions that C calls have names of their own, and take a slice as C passes a pointer and a length. The sources are
// written for Rattle's checker, whose style isn't Clippy's. One of their constants is only for the layer of C.
const ALLOWED: &str = "\
#[allow(unsafe_code, improper_ctypes_definitions)]
#[allow(dead_code, unused_imports, unused_variables)]
#[allow(clippy::complexity, clippy::pedantic, clippy::perf, clippy::style)]";

// The files of C, and those for pkg-config and CMake, each with its place in the folder of libraries.
const HEADER: &str = "vortex_logical_types.h";
const LAYER: [&str; 4] = ["vortex_logical_types.c", "arrow.c", "argument.c", "heap.c"];
const PACKAGES: [(&str, &str); 3] = [
    ("vortex_logical_types.pc", "pkgconfig"),
    (
        "vortex_logical_typesConfig.cmake",
        "cmake/vortex_logical_types",
    ),
    (
        "vortex_logical_typesConfigVersion.cmake",
        "cmake/vortex_logical_types",
    ),
];

fn main() -> Result<()> {
    let top = PathBuf::from(env::var("CARGO_MANIFEST_DIR")?).join("../..");
    let out = PathBuf::from(env::var("OUT_DIR")?);
    let c = top.join("c");
    let header = read(&c.join(HEADER))?;
    let soname = format!("libvortex_logical_types.so.{}", abi_version(&header)?);
    exports(&top.join("crates"), &out)?;
    layer(&c, &functions_in(&header)?, &out)?;
    link(&soname)?;
    // `OUT_DIR` is `build/NAME/out` in the folder in which Cargo leaves the libraries.
    let built = out.ancestors().nth(3).ok_or("OUT_DIR has no such parent")?;
    packages(&c, &soname, &built.join("capi"))
}

// Returns the text of a file. If it changes, this script runs again.
fn read(file: &Path) -> Result<String> {
    println!("cargo:rerun-if-changed={}", file.display());
    fs::read_to_string(file).map_err(|error| format!("{}: {error}", file.display()).into())
}

// Writes the erased sources, and the files by which `src/lib.rs` names their modules.
fn exports(crates: &Path, out: &Path) -> Result<()> {
    let layout = Layout::above(crates, &EXPORTS, "library", &LIBRARIES);
    let mut sources = Vec::new();
    for source in &layout.sources {
        println!("cargo:rerun-if-changed={}", source.folder.display());
        for path in sources_in(&source.folder)? {
            if !BY_HAND.iter().any(|name| path.ends_with(name)) {
                let inner = path.strip_prefix(&source.folder)?.display().to_string();
                sources.push((source.name.as_str(), inner, fs::read_to_string(&path)?));
            }
        }
    }
    let texts = sources.iter();
    let texts = texts.map(|(name, inner, text)| (*name, inner.as_str(), text.as_str()));
    let folder = out.join("erased");
    erase_texts(&layout, &texts.collect::<Vec<_>>())?.write(&folder)?;
    write_modules(&folder, &["c_nodes"], &out.join("modules.rs"))?;
    let root = folder
        .join("vortex_logical_types/lib.rs")
        .display()
        .to_string();
    let module = format!("{ALLOWED}\n#[path = {root:?}]\nmod vortex_logical_types;\n");
    fs::write(out.join("exports.rs"), module)?;
    Ok(())
}

// Compiles the layer of C. A shared library exports what is declared in Rust. So a function of the layer gets another name,
// and the function of the header is one in Rust that calls it.
fn layer(c: &Path, functions: &[Function], out: &Path) -> Result<()> {
    let names = out.join("names.h");
    let renamed = functions.iter().map(Function::renamed);
    fs::write(&names, renamed.collect::<String>())?;
    let declared = functions.iter().map(Function::in_rust);
    fs::write(out.join("layer.rs"), declared.collect::<String>())?;
    let listed = functions.iter().map(Function::listed);
    fs::write(out.join("functions"), listed.collect::<String>())?;
    let mut build = cc::Build::new();
    build.flag("-std=c11");
    build.flag("-include").flag(&names.display().to_string());
    for name in LAYER {
        println!("cargo:rerun-if-changed={}", c.join(name).display());
        build.file(c.join(name));
    }
    build.try_compile("vlt_layer")?;
    Ok(())
}

// How the shared library is linked on Linux: it has its name with the version, is never unloaded, because threads may have
// destructors in it, and contains what else would be taken from libgcc.
fn link(soname: &str) -> Result<()> {
    let mut unwinder = None;
    if env::var("CARGO_CFG_TARGET_OS")? == "linux" {
        println!("cargo:rustc-cdylib-link-arg=-Wl,-soname,{soname}");
        println!("cargo:rustc-cdylib-link-arg=-Wl,-z,nodelete");
        unwinder = found_unwinder()?;
    }
    if let Some(folder) = unwinder.as_ref().and_then(|file| file.parent()) {
        println!("cargo:rustc-link-search=native={}", folder.display());
        println!("cargo:rustc-link-lib=static:+whole-archive,-bundle=gcc_eh");
    }
    let file = unwinder.unwrap_or_default();
    println!("cargo:rustc-env=VLT_UNWINDER={}", file.display());
    Ok(())
}

// Where the C compiler has the static library of the unwinder, if it has one.
fn found_unwinder() -> Result<Option<PathBuf>> {
    let compiler = cc::Build::new().try_get_compiler()?;
    let mut command = Command::new(compiler.path());
    let said = command.arg("-print-file-name=libgcc_eh.a").output()?.stdout;
    let file = PathBuf::from(String::from_utf8(said)?.trim());
    Ok(Some(file).filter(|file| file.is_absolute()))
}

// Makes the folder that a program can be built against, and that `install-capi` installs. The libraries in it are links to
// those that Cargo builds after this script.
fn packages(c: &Path, soname: &str, folder: &Path) -> Result<()> {
    let (include, lib) = (folder.join("include"), folder.join("lib"));
    fs::create_dir_all(&include)?;
    fs::write(include.join(HEADER), read(&c.join(HEADER))?)?;
    for (name, place) in PACKAGES {
        let text = read(&c.join("packages").join(name))?;
        let text = text.replace("@VERSION@", &env::var("CARGO_PKG_VERSION")?);
        fs::create_dir_all(lib.join(place))?;
        fs::write(lib.join(place).join(name), text.replace("@SONAME@", soname))?;
    }
    links(&lib, soname)
}

#[cfg(unix)]
fn links(lib: &Path, soname: &str) -> Result<()> {
    let (archive, shared) = ("libvortex_logical_types.a", "libvortex_logical_types.so");
    for (name, to) in [
        (archive, "../../deps/libvortex_logical_types_c.a"),
        (soname, "../../deps/libvortex_logical_types_c.so"),
        (shared, soname),
    ] {
        let link = lib.join(name);
        if link.is_symlink() {
            fs::remove_file(&link)?;
        }
        std::os::unix::fs::symlink(to, &link)?;
    }
    Ok(())
}

#[cfg(not(unix))]
fn links(_: &Path, _: &str) -> Result<()> {
    Err("this package is only built on Unix".into())
}
