# SPDX-License-Identifier: Apache-2.0
# SPDX-FileCopyrightText: Copyright the Vortex contributors

"""tools/bindings/python_runs, over a package of the same name that pip installs without Cargo."""
import unittest

import python_package
from planted import Planted

PROJECT = """[build-system]
requires = ["setuptools"]
build-backend = "setuptools.build_meta"
[project]
name = "vortex-logical-types"
version = "1.2.3"
[tool.setuptools]
packages = ["vortex_logical_types"]
package-data = {vortex_logical_types = ["py.typed"]}
"""
README = "```python\nprint(1)\n```\n\nIt prints:\n\n```text\n1\n```\n"
FILES = {
    "Cargo.toml": '[workspace.package]\nversion = "1.2.3"\n',
    "python/pyproject.toml": PROJECT,
    "python/README.md": README,
    "python/vortex_logical_types/__init__.py": '__version__ = "1.2.3"\n',
    "python/vortex_logical_types/py.typed": "",
    "python/example.py": 'print("customer.city = utf8?\\n{customer={city=utf8?}, lines=list({sku=utf8})}")\n',
    "python/example_columns.py": 'print("customer: {city=utf8?}?\\nlines: list({price=decimal(10,2)?}?)?")\n',
    "python/example_merge_files.py": 'print("merged")\n',
    "python/example_registry.py": 'print("registered")\n',
    "rust/vortex-logical-types/examples/merge_files.txt": "merged\n",
    "rust/vortex-logical-types/examples/registry.txt": "registered\n",
    "python/tests/test_two.py": "import unittest\n\nimport vortex_logical_types\n\n\nclass Two(unittest.TestCase):\n"
                                "    def test_one(self):\n        self.assertEqual(vortex_logical_types.__version__, '1.2.3')\n\n"
                                "    def test_other(self):\n        self.assertEqual(2, 2)\n",
    "python/tests/capsules.py": 'print("capsules: done")\n',
    "python/tests/gdal_layers.py": "",
    "python/tests/typed_calls.py": "import vortex_logical_types\n\nshown: str = vortex_logical_types.__version__\n",
}


@unittest.skipUnless(python_package.builder(), "nothing here builds a Python package")
class PythonRuns(Planted):
    parts = ("tools",)

    def setUp(self):
        super().setUp()
        for file, text in FILES.items():
            self.write(file, text)

    def test_takes_a_package_that_is_right(self):
        status, said = self.run_tool("python_runs")
        self.assertRegex(said, r"^\d+ passed, 0 failed\n$")
        self.assertEqual(status, 0)

    def test_tells_what_is_wrong(self):
        self.change("python/tests/test_two.py", "(2, 2)", "(2, 3)")
        self.change("python/example.py", "city = utf8?", "city = utf8")
        self.change("python/example_registry.py", "registered", "refused")
        self.write("python/README.md", README.replace("print(1)", "print(2)"))
        self.write("Cargo.toml", '[workspace.package]\nversion = "1.2.4"\n')
        self.assert_told("python_runs", "FAIL: test_other", "example.py: status 0",
                         "example_registry.py: status 0", "a program of python/README.md: status 0",
                         "__version__: status 0")

    def test_tells_a_package_that_cannot_be_installed(self):
        self.write("python/pyproject.toml", "")
        self.write("python/setup.py", "raise SystemExit(3)\n")
        self.assert_told("python_runs", "pip install ./python: status 1")
