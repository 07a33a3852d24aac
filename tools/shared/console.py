# SPDX-License-Identifier: Apache-2.0
# SPDX-FileCopyrightText: Copyright the Vortex contributors

"""The console (rust/console), for the tools that read the pages: the commands of its tables, and the rows of its stored
transcripts, each a line with the answer that is expected. The tests of the console run these rows."""
import re
from collections import namedtuple
from glob import glob

from repository import lines_of, text_of

TRANSCRIPT, LONG_LINES = "rust/console/tests/transcript.txt", "rust/console/tests/long_lines.txt"
SOURCES = "rust/console/src/**/*.rs"
TABLE = re.compile(r"(?m)^pub const \w+: &\[Row\] = rows! \{\n((?s:.*?))^\};")
ROW = re.compile(r'(?m)^    \[((?:(?:r#".*?"#|"(?:\\.|[^"\\])*")(?:, )?)+)\] ')
TEXT = re.compile(r'r#"(.*?)"#|"((?:\\.|[^"\\])*)"')

# A command: the file of its table, and the texts of its row.
Row = namedtuple("Row", "file name arguments example answer errors", defaults=[""])


def commands():
    """The rows of the console's tables; the errors are those that its commands' answers may be."""
    for file in sorted(glob(SOURCES, recursive=True)):
        for row in (row for table in TABLE.findall(text_of(file)) for row in ROW.findall(table)):
            yield Row(file, *(raw or plain.replace('\\"', '"') for raw, plain in TEXT.findall(row)))


def rows(*files):
    """The lines of these transcripts, or of both, that aren't comments or blank, each with its answer. (In the arguments of a
    long line a text between « and » stands for a longer one.)"""
    found = []
    for file in files or (TRANSCRIPT, LONG_LINES):
        rest = iter(lines_of(file))
        found += [(line[2:], next(rest, "")) for line in rest if line.startswith("> ")]
    return found
