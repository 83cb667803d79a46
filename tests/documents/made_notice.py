#!/usr/bin/env python3
"""Makes NOTICE of the licence files of the kit: each library that the program is built of, with its texts.

    tests/documents/made_notice.py
"""
import collections
import glob
import os
import pathlib
import subprocess
import textwrap

ROOT = pathlib.Path(__file__).resolve().parents[2]
NOTICE = ROOT / "NOTICE"
HEAD = """\
muni, a calculator and confirmation desk for municipal securities
Copyright (c) 2026 the Nayuchek authors

It is offered under the MIT licence (LICENSE-MIT) or the Apache License, version 2.0 (LICENSE-APACHE), as you
choose.

The program, dist/muni and that of a package, is built of its own sources and of libraries of the Rattle kit.
Most of these are ports of libraries for Rust, whose licences stand below, each with the libraries that it came
with. `tests/documents/made_notice.py` makes this file of the kit's licence files.
"""
OWN = """\
These libraries of the kit have no licence file of their own:
"""
SYSTEM = """\
The program uses the GNU C Library of the machine on which it runs (libc.so.6). It carries no part of it but the
start code that the linker adds. The GNU C Library is free software under the GNU Lesser General Public License,
version 2.1 or later, which Debian has at /usr/share/common-licenses/LGPL-2.1. Its source is at
https://sourceware.org/git/glibc.git.
"""


def kit():
    """The folder of the kit, to which `rt` belongs."""
    return os.path.dirname(subprocess.run(["rt", "doc"], capture_output=True, text=True, check=True).stdout.strip())


def libraries(folder):
    """The libraries of the kit that the program is built of, at once or through others."""
    text = (ROOT / "crates.txt").read_text(encoding="utf-8")
    lines = [line.partition(":") for line in text.splitlines() if ":" in line and not line.startswith("#")]
    ours = {name: words.split() for name, _, words in lines}
    seen, waiting = set(), ["muni_prog"]
    while waiting:
        name = waiting.pop()
        if name not in seen:
            seen.add(name)
            waiting += ours[name] if name in ours else below(folder, name)
    return sorted(seen - set(ours))


def below(folder, library):
    with open("%s/rlibs/%s.rlib/format" % (folder, library), encoding="utf-8", errors="replace") as file:
        return [line.split()[1] for line in file if line.startswith("dep ")]


def notice(folder):
    """The text of NOTICE. Libraries whose licences differ in blanks and line ends alone share one text."""
    texts, holders, own = {}, collections.defaultdict(list), []
    for library in libraries(folder):
        files = sorted(glob.glob("%s/rattle/%s/LICENSE*" % (folder, library)))
        if not files:
            own.append(library)
        for path in files:
            with open(path, encoding="utf-8") as file:
                text = file.read().expandtabs()
            key = " ".join(text.split())
            texts.setdefault(key, text.strip("\n"))
            holders[key].append(library)
    parts = [HEAD, OWN + "\n" + wrapped(own) + "\n", SYSTEM]
    for key, text in texts.items():
        parts.append(wrapped(holders[key]) + "\n\n" + "\n".join(line.rstrip() for line in text.splitlines()) + "\n")
    return ("\n" + "-" * 110 + "\n\n").join(parts)


def wrapped(names):
    return textwrap.fill(", ".join(names), 110)


if __name__ == "__main__":
    NOTICE.write_text(notice(kit()), encoding="utf-8")
