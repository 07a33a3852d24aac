# SPDX-License-Identifier: Apache-2.0
# SPDX-FileCopyrightText: Copyright the Vortex contributors

"""docs/PACKAGES.md as an archive has it, and the examples of that text as programs, which tools/bindings/installs runs. In each
section of the page there is at most one example in each language and a block `output` that each of them prints. The first block
in C has what the examples in C stand behind."""
import re

PAGE = "docs/PACKAGES.md"
SECTION = re.compile(r"(?m)^## (.*)$")
BLOCK = re.compile(r"(?ms)^```(rust|python|c|output)\n(.*?)^```$")
# Code, which has no links, and a link to a page that isn't in the archive.
LINK = re.compile(r"(?s)(?P<code>^```.*?^```$|`[^`\n]*`)|(?<!!)\[(?P<words>(?:`[^`\n]*`|[^\]`])+)\]\((?!#|README\.md)[^)]*\)", re.M)


def shipped():
    """The page, in which the links to pages that aren't in the archive are plain words."""
    with open(PAGE, encoding="utf-8") as it:
        text = it.read().replace("](../tools/bindings/ARCHIVE.md", "](README.md")
    return LINK.sub(lambda found: found["code"] or found["words"], text)


def sections():
    """Each section with examples: its heading, its blocks by language, and what they print."""
    parts = SECTION.split(shipped())[1:]
    for heading, text in zip(parts[::2], parts[1::2]):
        blocks = dict(BLOCK.findall(text))
        if "output" in blocks:
            yield heading, {language: it for language, it in blocks.items() if language != "output"}, blocks["output"]


def head_of_c():
    """The lines that the examples in C stand behind."""
    return next(text for language, text in BLOCK.findall(shipped()) if language == "c")


def in_rust(example):
    return f"use vortex_logical_types::*;\n\nfn main() -> Result<(), Error> {{\n{example}Ok(())\n}}\n"


def in_c(example):
    return f"{head_of_c()}\nint main(void) {{\n{example}return 0;\n}}\n"


def programs(*languages):
    """The examples in these languages: what each is, its language, the program, and what it prints."""
    for heading, examples, output in sections():
        for language, example in examples.items():
            if language in languages:
                wrap = {"rust": in_rust, "c": in_c, "python": str}[language]
                yield f"{PAGE}, {heading}, in {language}", language, wrap(example), output
