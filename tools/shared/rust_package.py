# SPDX-License-Identifier: Apache-2.0
# SPDX-FileCopyrightText: Copyright the Vortex contributors

"""The Rust crate as a Cargo package that stands alone, so that it can be published and put into an archive: the sources of
rust/vortex-logical-types, and in place of its build script the Rust files that `erase --into` writes. Its tests, the
demo and the planner of scans, which are other crates, aren't in it."""
import os
import re
import subprocess
from glob import glob

from cargo import CRATE, command
from repository import text_of

SOURCES = ["README.md", "src/*.rs", "src/habits/**/*.rs", "src/rattle_std/**/*.rs", "examples/*.rs",
           "examples/vortex_array/*.rs"]
# The sections of Cargo.toml that a package alone has no use for.
LEFT_OUT = ("build-dependencies", "dev-dependencies", "[test]", "lints")
SECTION = re.compile(r"(?m)^\[(.+)\]$")
INCLUDED = 'include!(concat!(env!("OUT_DIR"), "/libraries.rs"));'


def sections(text):
    """The text before the first section of a Cargo.toml, under an empty name, and the text of each section."""
    before, *parts = SECTION.split(re.sub(r"(?m)^#.*\n", "", text))
    return {"": before, **dict(zip(parts[::2], parts[1::2]))}


def manifest():
    """Cargo.toml of the package, with what the workspace has in common, and without the build script and the tests."""
    workspace, own = sections(text_of("Cargo.toml")), sections(text_of(f"{CRATE}/Cargo.toml"))
    common = dict(re.findall(r"(?m)^([\w-]+) = (.*)$", workspace["workspace.package"]))
    kept = {name: text for name, text in own.items() if name and name not in LEFT_OUT}
    kept["package"] = re.sub(r"(?m)^([\w-]+)\.workspace = true$", lambda it: f"{it[1]} = {common[it[1]]}", kept["package"])
    kept["package"] = kept["package"].replace('build = "build.rs"\n', "")
    kept["lints.rust"] = workspace["workspace.lints.rust"]
    return "\n".join(f"[{name}]\n{text.strip()}\n" for name, text in kept.items())


def erased(room):
    """The folder with the erased libraries, which are written below this one."""
    into = f"{room}/erased"
    subprocess.run(command("run", "-q", "--release", "-p", "erase", "--", "--into", into), check=True, stdin=subprocess.DEVNULL)
    return into


def files(room):
    """The files of the package, by their names in it: their bytes. What is made for them is put into this folder."""
    found = {os.path.relpath(it, CRATE): text_of(it) for pattern in SOURCES
             for it in glob(f"{CRATE}/{pattern}", recursive=True)}
    into = erased(room)
    found |= {f"erased/{os.path.relpath(it, into)}": text_of(it) for it in glob(f"{into}/**/*.rs", recursive=True)}
    if found["src/lib.rs"].count(INCLUDED) != 1:
        raise ValueError(f"{CRATE}/src/lib.rs doesn't have the line {INCLUDED}")
    found["src/lib.rs"] = found["src/lib.rs"].replace(INCLUDED, 'include!("../erased/modules.rs");')
    return {"Cargo.toml": manifest().encode(), **{name: text.encode() for name, text in found.items()}}
