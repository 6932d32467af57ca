"""Proves and builds the libraries for C, and puts them into build/:

    build/libqlock.a, libqlock.so             the voter, the client and the guard (include/qlock.h)
    build/libqlock_plan.a, libqlock_plan.so   plans, and the quorums of tickets (include/qlock_plan.h)
    build/qlock.pc, qlock_plan.pc             for pkg-config, with PKG_CONFIG_PATH=build

Each has a static library (.a), and a shared one (.so) for Python and other languages that load one.
The first call proves what the libraries are made of, and says how far it is; later calls take what
is proved, also by `rt ci`. CC and AR name the C compiler that links the shared libraries, and the
archiver: cc and ar if they are not set.

    ./library
"""
import os
import subprocess
import sys
import tempfile

import rt
import version
from build import build, is_current, product, put
from crates import BUILD, ROOT

LIBRARIES = {"qlock": "The voter, the client and the guard of a voting lock",
             "qlock_plan": "Plans of coteries, and the quorums of tickets"}
# The crates that each library is made of.
CRATES_OF = {"qlock": ("qlock_c", "qlock_session_c"), "qlock_plan": ("qlock_plan_c",)}


def call(*words, **given):
    subprocess.run(words, check=True, **given)


def link(archive, to, soname):
    """Links a shared library of an archive."""
    # nothing in the shared library refers to the calls, so the whole archive is taken
    call(os.environ.get("CC", "cc"), "-shared", "-o", to, f"-Wl,-soname,{soname}", "-Wl,--whole-archive", archive,
         "-Wl,--no-whole-archive")
    os.chmod(to, 0o644)


def pc_text(name, number, prefix, folder, include):
    """Returns the file of a library for pkg-config, with the folders of libraries and headers."""
    return (f"prefix={prefix}\nlibdir={folder}\nincludedir={include}\n\nName: {name}\nDescription: {LIBRARIES[name]}\n"
            f"Version: {number}\nLibs: -L${{libdir}} -l{name}\nCflags: -I${{includedir}}\n")


def make(name, room):
    """Makes a library of the archives of its crates."""
    archives = [product(it) for it in CRATES_OF[name]]
    if name == "qlock_plan":
        # its memory comes from malloc, which the kit calls
        archives.append(os.path.join(rt.kit(), "c", "liblibc_c.a"))
    parts, archiver = os.path.join(room, name), os.environ.get("AR", "ar")
    os.mkdir(parts)
    for archive in archives:
        call(archiver, "x", archive, cwd=parts)
    made = {kind: os.path.join(room, it) for kind, it in zip("asp", (f"lib{name}.a", f"lib{name}.so", f"{name}.pc"))}
    call(archiver, "rcs", made["a"], *(os.path.join(parts, it) for it in sorted(os.listdir(parts))))
    link(made["a"], made["s"], f"lib{name}.so")
    with open(made["p"], "w", encoding="utf-8") as file:
        file.write(pc_text(name, version.of_tree(), ROOT, BUILD, os.path.join(ROOT, "include")))
    for file in made.values():
        put(file, os.path.join(BUILD, os.path.basename(file)))
    print(f"library: {BUILD}/lib{name}.a, lib{name}.so and {name}.pc", file=sys.stderr)


def main(_=()):
    crates = [it for name in LIBRARIES for it in CRATES_OF[name]]
    if not all(is_current(it, product(it)) for it in crates):
        print("library: proving and building, once after each change", file=sys.stderr)
        build(crates)
    with tempfile.TemporaryDirectory(prefix="qlock-library-") as room:
        for name in LIBRARIES:
            make(name, room)
