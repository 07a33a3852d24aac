# SPDX-License-Identifier: Apache-2.0
# SPDX-FileCopyrightText: Copyright the Vortex contributors

"""How Cargo is called, for all tools that build the Rust workspace or what depends on its crate. If there is a folder
/usr/share/cargo/registry, as Debian's packages `librust-NAME-dev` fill it, the dependencies come from there and nothing is
downloaded. Otherwise they come from Cargo's own registry."""
import os
import re

from repository import text_of

REGISTRY = "/usr/share/cargo/registry"
FROM_REGISTRY = ["--offline", "--config", 'source.crates-io.replace-with="debian"',
                 "--config", f'source.debian.directory="{REGISTRY}"']
# The crate, by its folder.
CRATE = "rust/vortex-logical-types"


def command(name, *words):
    """The command of Cargo of this name with these words."""
    return ["cargo", name, *(FROM_REGISTRY if os.path.isdir(REGISTRY) and name != "fmt" else []), *words]


def version():
    """The version of the workspace."""
    return re.search(r'(?m)^version = "(.*)"$', text_of("Cargo.toml"))[1]
