#!/usr/bin/env python3
"""Makes two files of debian/: changelog of CHANGELOG.md and VERSION, and copyright of NOTICE, LICENSE-MIT and the
licences that it names.

    tests/documents/made_debian.py
"""
import collections
import email.utils
import pathlib
import re
import textwrap
from datetime import datetime, timedelta, timezone

ROOT = pathlib.Path(__file__).resolve().parents[2]
MAINTAINER = "Nayuchek maintainers <maintainers@users.noreply.nayuchek.example>"
APACHE = """\
 On Debian systems the full text of the Apache License, version 2.0, is in
 /usr/share/common-licenses/Apache-2.0.
"""


def read(name):
    return (ROOT / name).read_text(encoding="utf-8")


def items(text):
    """The paragraphs of a section, each an item, and its blocks of code as they are."""
    for block in re.split(r"\n\n+|\n(?=- )", text.strip("\n")):
        if block.startswith("    "):
            yield "".join("    %s\n" % line for line in block.splitlines())
        else:
            plain = re.sub(r"\*\*|^- ", "", " ".join(block.split()))
            yield textwrap.fill(plain, 78, initial_indent="  * ", subsequent_indent="    ", break_long_words=False,
                                break_on_hyphens=False) + "\n"


def changelog():
    sections = re.findall(r"^## ([\d.]+), ([\d-]+)\n(.*?)(?=^## |\Z)", read("CHANGELOG.md"), re.M | re.S)
    if sections[0][0] != read("VERSION").strip():
        raise ValueError("CHANGELOG.md has no section of the version that VERSION has")
    # Versions of one day follow one another by the hour.
    count = collections.Counter()
    entries = []
    for version, day, text in reversed(sections):
        at = datetime.fromisoformat(day).replace(tzinfo=timezone.utc) + timedelta(hours=12 + count[day])
        count[day] += 1
        entries.append("muni (%s) unstable; urgency=medium\n\n%s\n -- %s  %s\n"
                       % (version, "".join(items(text)), MAINTAINER, email.utils.format_datetime(at)))
    return "\n".join(reversed(entries))


def words(text):
    """The words of a licence without its title and the lines of its holders."""
    kept = [line for line in text.splitlines() if not re.match(r"\s*(Copyright \(c\)|(The )?MIT License)", line)]
    return " ".join(kept).split()


def spread(text):
    """A text as a field of several lines has it."""
    return "".join(" %s\n" % (line or ".") for line in text.strip("\n").splitlines())


def rights():
    own = read("LICENSE-MIT")
    sections = [part.partition("\n\n") for part in re.split(r"\n-{20,}\n\n", read("NOTICE"))][1:]
    holders, under, bsd = [], {"Expat": [], "Apache-2.0": [], "BSD-3-Clause": []}, ""
    for head, _, text in sections:
        names = head.replace("\n", " ").split(", ")
        if words(text) == words(own):
            under["Expat"] += names
            holders += re.findall(r"^Copyright \(c\) (.*)$", text, re.M)
        elif "Apache License" in text.partition("\n")[0]:
            under["Apache-2.0"] += names
        elif text.startswith("BSD 3-Clause License"):
            under["BSD-3-Clause"] += names
            holders += re.findall(r"^Copyright \(c\) (.*)$", text, re.M)
            bsd = text.partition("All rights reserved.\n\n")[2]
        elif re.match(r"These libraries|The program uses", head):
            continue
        else:
            raise ValueError("NOTICE has a licence for %s that is none of these" % head)
    both = sorted(set(under["Expat"]) & set(under["Apache-2.0"]))
    one = sorted(set(under["Expat"]) - set(both))
    if set(under["Apache-2.0"]) - set(both):
        raise ValueError("NOTICE has libraries under Apache-2.0 alone: say so here")
    told = ("The program is built of its own sources and of libraries of the Rattle kit, most of which are ports of"
            " libraries for Rust. Under Expat or Apache-2.0: %s. Under Expat: %s. A part under BSD-3-Clause: %s."
            " NOTICE, beside this file, has their licences one by one."
            % (", ".join(both), ", ".join(one), ", ".join(under["BSD-3-Clause"])))
    return """\
Format: https://www.debian.org/doc/packaging-manuals/copyright-format/1.0/
Upstream-Name: muni
Upstream-Contact: %s
Comment: The package is made by those who make the program.

Files: *
Copyright: 2026 the Nayuchek authors
License: Expat or Apache-2.0

Files: dist/muni
Copyright: 2026 the Nayuchek authors
%sLicense: Expat or Apache-2.0, and Expat, and BSD-3-Clause
Comment:
%s
License: Expat
%s
License: BSD-3-Clause
%s
License: Apache-2.0
%s""" % (MAINTAINER, "".join("           %s\n" % each for each in sorted(set(holders))),
         spread(textwrap.fill(told, 78)), spread(own.partition("authors\n\n")[2]), spread(bsd), APACHE)


def files():
    """Each file with the text that it has to have."""
    return {"debian/changelog": changelog(), "debian/copyright": rights()}


if __name__ == "__main__":
    for path, text in files().items():
        (ROOT / path).write_text(text, encoding="utf-8")
