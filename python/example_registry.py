# SPDX-License-Identifier: Apache-2.0
# SPDX-FileCopyrightText: Copyright the Vortex contributors

"""A registry of the versions of a schema. It accepts a new version if what was written with every earlier one can be read as
the new one, and otherwise says why not."""
from vortex_logical_types import DType


class Registry:
    """The versions that were accepted, from the first on."""

    def __init__(self):
        self.versions = []

    def register(self, new):
        """Adds a version and returns its number, counted from 1. Raises a ValueError with the reasons if it is refused."""
        for old in reversed(self.versions):
            if not old.reads_as(new):
                raise ValueError("\n    ".join(reasons(old, new)))
        self.versions.append(new)
        return len(self.versions)


def reasons(old, new):
    """Yields why values of the old type can't be read as the new one."""
    merged = old.merge_columns(new)
    if merged is None:
        yield str(old.merge_conflict(new))
        return
    # As the merged type both can be read. What the new one lacks is what differs.
    for path, part in merged.parts():
        found = path.resolve(new)
        if found is None:
            yield f"{path.to_source()} is missing"
        elif part.is_nullable and not found.is_nullable:
            yield f"{path.to_source()} must be nullable"
    yield f"try {merged.to_source()}"


registry = Registry()
for text in ("{id=u64, customer={name=utf8, city=utf8?}}",
             "{id=u64, customer={name=utf8, city=utf8?}, note=utf8}",
             "{id=u64, customer={name=utf8}, note=utf8?}",
             "{note=utf8?, id=u64, customer={name=utf8, city=utf8?}?}",
             "{id=utf8, customer={name=utf8, city=utf8?}?, note=utf8?}"):
    try:
        print(f"version {registry.register(DType(text))}: {text}")
    except ValueError as refused:
        print(f"refused: {text}\n    {refused}")
