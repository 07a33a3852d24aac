# SPDX-License-Identifier: Apache-2.0
# SPDX-FileCopyrightText: Copyright the Vortex contributors

"""tools/bindings/installs, over a Cargo that fails, and the examples that it takes from docs/PACKAGES.md (guide.py)."""
import subprocess
import unittest

import python_package
from planted import Planted

PAGE = """# Page

```c
#include <stdio.h>
```

## First

```rust
let a = 1;
```

```c
puts("1");
```

```output
1
```

## Second

```rust
let b = 2;
```
"""
PRINTED = """import guide
for what, language, program, output in guide.programs("rust", "c"):
    print(what, program.count("main"), "stdio" in program, repr(output))
"""


class Installs(Planted):
    @unittest.skipUnless(python_package.builder(), "nothing here builds a Python package")
    def test_tells_what_cannot_be_installed(self):
        self.script("cargo", '[ "$1" = new ] && mkdir -p "${@: -1}/src" || exit 9')
        for words in (["init", "-q"], ["add", "-A"], ["-c", "user.name=a", "-c", "user.email=a@b", "commit", "-q", "-m", "a"]):
            subprocess.run(["git", *words], cwd=self.top, check=True)
        self.assert_told("installs", "installs: cargo add --git file://", "installs: pip install ",
                         "installs: cargo run --release ", "installs: ./demo: status ", "installs: ./dist: status ")

    def test_takes_the_examples_that_print_something(self):
        self.write("docs/PACKAGES.md", PAGE)
        self.write("tools/bindings/printed", f"#!/usr/bin/env python3\n{PRINTED}", 0o755)
        status, said = self.run_tool("printed")
        self.assertEqual((status, said), (0, "docs/PACKAGES.md, First, in rust 1 False '1\\n'\n"
                                             "docs/PACKAGES.md, First, in c 1 True '1\\n'\n"))
