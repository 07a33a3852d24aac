# SPDX-License-Identifier: Apache-2.0
# SPDX-FileCopyrightText: Copyright the Vortex contributors

"""How the Python package in the folder `python` is built: by pip, which has setuptools-rust call Cargo."""
import os
import shutil
import subprocess
import sys
from glob import glob

import cargo

# What a build of the wheel needs, with no network to take it from.
NEEDED = ("setuptools", "setuptools_rust", "wheel", "pip")
SOURCES = f'[source.crates-io]\nreplace-with = "debian"\n\n[source.debian]\ndirectory = "{cargo.REGISTRY}"\n'


def builder():
    """The interpreter that can build the wheel: this one, or that of the system."""
    for it in (sys.executable, "/usr/bin/python3"):
        if shutil.which(it) and subprocess.run([it, "-c", f"import {', '.join(NEEDED)}"], stderr=subprocess.DEVNULL,
                                               check=False).returncode == 0:
            return it
    return None


def settings(room):
    """The environment variables by which Cargo takes the crates from Debian's packages, if PyO3 is among them. The file that
    says so is put into this folder."""
    if not glob(f"{cargo.REGISTRY}/pyo3-0.17*"):
        return {}
    os.makedirs(f"{room}/cargo", exist_ok=True)
    with open(f"{room}/cargo/config.toml", "w", encoding="utf-8") as it:
        it.write(SOURCES)
    return {"CARGO_HOME": f"{room}/cargo"}


def pip(word):
    """The command of pip of this name, which builds without a network where it can, and the source folder without what an
    earlier build left there."""
    # (A file that is gone from the sources would otherwise still be in the wheel.)
    shutil.rmtree("python/build", ignore_errors=True)
    python = builder()
    return [python or sys.executable, "-m", "pip", word, "-q", "--no-deps", *["--no-build-isolation"] * bool(python)]
