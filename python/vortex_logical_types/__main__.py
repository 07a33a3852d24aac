# SPDX-License-Identifier: Apache-2.0
# SPDX-FileCopyrightText: Copyright the Vortex contributors

"""The console, a program that makes calls of the library on types and paths that are written as text:

    python -m vortex_logical_types                               # a prompt at a terminal, otherwise the lines of standard input
    python -m vortex_logical_types -c 'find b {a=i32, b=u8}'     # one command; `help` lists them
"""

import signal
import sys

from ._native import console

if __name__ == "__main__":
    # (Ctrl-C ends it while it waits for a line, as it ends other programs.)
    signal.signal(signal.SIGINT, signal.SIG_DFL)
    sys.exit(console(["vortex_logical_types", *sys.argv[1:]]))
