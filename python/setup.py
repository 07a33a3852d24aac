# SPDX-License-Identifier: Apache-2.0
# SPDX-FileCopyrightText: Copyright the Vortex contributors

"""Has Cargo build the extension. One wheel serves Python 3.9 and each later one."""
import shutil
from pathlib import Path

from setuptools import setup
from setuptools_rust import Binding, RustExtension

# The license of the repository is packed with the package.
FOLDER = Path(__file__).resolve().parent
for name in ("LICENSE", "NOTICE"):
    if (FOLDER.parent / name).exists():
        shutil.copy(FOLDER.parent / name, FOLDER / name)

setup(
    rust_extensions=[RustExtension("vortex_logical_types._native", "Cargo.toml", binding=Binding.PyO3, py_limited_api=True)],
    options={"bdist_wheel": {"py_limited_api": "cp39"}},
)
