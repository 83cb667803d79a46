"""The clauses that keep the promises of docs/PROMISES.md, by the comments directly above them:

    // promise 1, 4: what this clause gives

docs/clauses.tsv is made of these. A clause that keeps several promises has a row for each.
"""
import os
import re

PAGE = "docs/PROMISES.md"
TABLE = "docs/clauses.tsv"


def numbers(note):
    """The numbers of the promises that a comment names."""
    named, _, _ = note.words.partition(": ")
    return [int(number) for number in named.split(", ") if number.isdecimal()]


def table(sources):
    """The text of the table: by promise, and then by the crates from below and the places in their files."""
    crates = list(sources.stands_on)
    lines = [(number, crates.index(note.crate), place, note)
             for place, note in enumerate(sources.notes) if note.clause is not None for number in numbers(note)]
    rows = [("promise", "crate", "function", "clause", "gives")]
    rows += [(str(number), note.crate, note.function, note.clause or "-", note.words.partition(": ")[2])
             for number, _, _, note in sorted(lines)]
    return "".join("\t".join(row) + "\n" for row in rows)


def faults(sources, page):
    """What is wrong with the comments, and which promise is said to be proved and has no clause."""
    promised = dict(re.findall(r"^### (\d+)\. .*\n((?:(?!##).*\n)*)", page, re.M))
    kept = set()
    for note in sources.notes:
        named, path = numbers(note), os.path.relpath(note.path, sources.root)
        if note.clause is None:
            yield "%s: this stands above no clause: // promise %s" % (path, note.words)
        elif not named or not all(str(number) in promised for number in named):
            yield "%s: this names no promise of %s: // promise %s" % (path, PAGE, note.words)
        else:
            kept.update(map(str, named))
    for number, text in promised.items():
        if "*Proved" in text and number not in kept:
            yield "%s: promise %s is said to be proved, and no clause has a line for it" % (PAGE, number)
