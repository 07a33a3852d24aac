# SPDX-License-Identifier: Apache-2.0
# SPDX-FileCopyrightText: Copyright the Vortex contributors

"""The types that are written at the functions of the classes in Rust: the stub of the extension, as a module."""
import importlib.util
import pathlib
import sys
from importlib.machinery import SourceFileLoader

import vortex_logical_types

PATH = pathlib.Path(vortex_logical_types.__file__).parent / "_native.pyi"


def loaded():
    """The stub, in which the names of classes mean those of the package."""
    name = "vortex_logical_types._stub_of_native"
    spec = importlib.util.spec_from_loader(name, SourceFileLoader(name, str(PATH)))
    module = importlib.util.module_from_spec(spec)
    source = "from __future__ import annotations\n" + PATH.read_text(encoding="utf-8")
    sys.modules[name] = module
    exec(compile(source, str(PATH), "exec"), vars(module))
    return module


MODULE = loaded()
CLASSES = {name: it for name, it in vars(MODULE).items() if isinstance(it, type) and it.__module__ == MODULE.__name__}
# (What is written at a function of the stub names the classes of the package.)
NAMES = {**vars(MODULE), **{name: getattr(vortex_logical_types, name) for name in CLASSES}}
