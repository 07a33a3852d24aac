# SPDX-License-Identifier: Apache-2.0
# SPDX-FileCopyrightText: Copyright the Vortex contributors

"""The library for C, as `tools/bindings/library` makes it of the proved one: with the layer that has the public functions, with
what reads and writes the struct of Arrow, and with the heap."""
import os
import subprocess

CRATE = "vortex_logical_types"
ARCHIVE = f"crates/{CRATE}/out/lib{CRATE}.a"
STATIC, SHARED = f"lib{CRATE}.a", f"lib{CRATE}.so"
COMPILER = ["cc", "-std=c11", "-O2", "-fPIC", "-ffunction-sections"]


def run(command):
    subprocess.run(command, check=True, stderr=subprocess.PIPE)


def exported():
    """The names of the public functions."""
    ran = subprocess.run(["tools/bindings/bindings", "--exports"], check=True, stdout=subprocess.PIPE, text=True)
    return ran.stdout.split()


def soname(header=f"c/{CRATE}.h"):
    """The name by which a program asks for the shared library that has this header. It ends in the version of the interface."""
    with open(header, encoding="utf-8") as it:
        line = next(line for line in it if line.startswith("#define VLT_ABI_VERSION "))
    return f"{SHARED}.{line.split()[2].rstrip('u')}"


def compiled(source, folder):
    """A source of C as an object, whose name is another than that of the proved object, because `ar` replaces an object by
    one of the same name."""
    made = f"{folder}/{'layer' if source == CRATE else source}.o"
    run([*COMPILER, "-c", f"c/{source}.c", "-o", made])
    return made


def build(archive, folder):
    """Makes the static and the shared library in a folder, of the proved archive. The shared library has the symbols of the
    header and no others. Its file has the name of its soname, and a link has the name without the version."""
    os.makedirs(folder, exist_ok=True)
    parts = [compiled(it, folder) for it in (CRATE, "arrow", "argument", "heap")]
    with open(f"{folder}/symbols", "w", encoding="utf-8") as it:
        it.write(f"{{ global: {'; '.join(exported())}; local: *; }};\n")
    run(["cp", archive, f"{folder}/{STATIC}"])
    run(["ar", "rDs", f"{folder}/{STATIC}", *parts])
    run(["cc", "-shared", "-s", f"-Wl,-soname,{soname()}", "-Wl,--build-id=none", f"-Wl,--version-script={folder}/symbols",
         "-Wl,--whole-archive", archive, "-Wl,--no-whole-archive", *parts, "-o", f"{folder}/{soname()}"])
    for it in (*parts, f"{folder}/symbols"):
        os.remove(it)
    if os.path.lexists(f"{folder}/{SHARED}"):
        os.remove(f"{folder}/{SHARED}")
    os.symlink(soname(), f"{folder}/{SHARED}")
    return f"{folder}/{STATIC}", f"{folder}/{soname()}"
