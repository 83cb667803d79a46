"""What the documents cite of the sources, looked up: functions, their clauses, definitions, files and walks.

A document cites in code spans. These are looked up:

    `function`: `clause`, `clause`      each clause stands in a contract of a function of that name
    `Record`: `field`, `field`          or is a field of the record, or a clause of a function of the type
    `clause` and `clause` of `Type`     the same, with the owner after its clauses
    `crate::Type::function`             each part stands in the one before it
    `IsSound`, `put_slot`               a definition, a type, a function, a clause or a field has this name
    `crates/muni_rule/src/lib.rt`       a file or a folder of the repository has this path
    `tests/commands/test_rows.py test_x` and that file has this test
    4 calls: `main` → `desk` → ..       a walk: each function calls the next one, and there are so many calls
    `tables/rows`, 196                  the table, or the tables of the folder, has so many cases

Other words, as those of a command, are passed over.
"""
import collections
import glob
import os
import re
from typing import NamedTuple

SPAN = r"`([^`\n]+)`"
SPANS = SPAN + r"(?:(?:, | and |, and )" + SPAN + r")*"
NAME = re.compile(r"(?:\w+::)*\w+")
FOLDERS = (".ci/", "bench/", "clients/", "conformance/", "crates/", "deploy/", "dist/", "docs/", "examples/",
           "tables/", "tests/", "web/")
SUFFIXES = (".rt", ".antt")

# Words that have the form of a name of ours: a part of a name, and names of the standard library.
FOREIGN = {"muni_", "write_all"}


class Function:
    """A function with the type or trait that it belongs to, the names of its clauses and its text."""

    def __init__(self, crate, module, owner, name):
        self.path = [part for part in (crate, module, owner, name) if part]
        self.crate, self.owner, self.name = crate, owner, name
        self.clauses = set()
        self.facts = set()
        self.body = []


class Note(NamedTuple):
    """A comment `// promise ..` with the function and the name of the clause that it stands directly above: none if it
    stands above no clause, and an empty one if the clause has no name."""

    path: str
    crate: str
    function: str
    clause: str | None
    words: str


def functions_of(path, crate, notes):
    """The functions of a source. A law, which has no body, has the fields of its fact for clauses. The comments on
    promises are added to the notes."""
    module = os.path.splitext(os.path.basename(path))[0]
    owner, function, words = "", None, None
    with open(path, encoding="utf-8") as file:
        for line in [*file, ""]:
            head = re.match(r"(?:pub(?:\(\w+\))? )?(?:unsafe )?(?:impl\b(?:<.*?>)? (?:.* for )?(\w+)|trait (\w+))", line)
            if head:
                owner = head[1] or head[2]
            elif line.startswith("}"):
                owner = ""
            found = (re.match(r"\s*(?:pub )?(?:pub\(\w+\) )?(?:const )?(?:unsafe )?fn (\w+)", line)
                     or re.match(r"\s+ghost (\w+):", line))
            if found:
                function = Function(crate, module, owner if line.startswith(" ") else "", found[1])
                yield function
            clause = re.match(r"\s*(ensures|requires) (?:(\w+) )?\{", line)
            if words is not None:
                named = "::".join(filter(None, (function.owner, function.name))) if function else ""
                is_above = clause and clause[1] == "ensures"
                notes.append(Note(path, crate, named, (clause[2] or "") if is_above else None, words))
            promise = re.match(r"\s*// promises?\b(?: |$)(.*)", line)
            words = promise and promise[1]
            if function:
                if clause and clause[2]:
                    function.clauses.add(clause[2])
                fact = re.match(r"\s*ensures \{ (\w+) \}", line)
                if fact:
                    function.facts.add(fact[1])
                function.body.append(line)


def definitions_of(path):
    """The names that a file of definitions has, each with its fields if it is a record."""
    name, fields = None, set()
    with open(path, encoding="utf-8") as file:
        for line in file:
            found = (re.match(r"(?:abbrev |unfoldable |opaque )?pub (?:record |data )?(\w+)", line)
                     or re.match(r"\s+(?:abbrev pub|pub record|pub data) (\w+)", line))
            if found:
                if name:
                    yield name, fields
                name, fields = found[1], set()
            field = re.match(r"\s+(?:pub )?(\w+) :", line)
            if field:
                fields.add(field[1])
    if name:
        yield name, fields


class Sources:
    """The names of all crates under a root."""

    def __init__(self, root):
        self.root = root
        self.functions = collections.defaultdict(list)
        self.notes = []
        self.fields = collections.defaultdict(set)
        self.of_crate = collections.defaultdict(set)
        self.names = set(FOREIGN)
        self.files = set()
        self.stands_on = {}
        with open(os.path.join(root, "crates.txt"), encoding="utf-8") as file:
            for line in file:
                if not line.startswith("#") and ":" in line:
                    crate, _, libraries = line.partition(":")
                    self.stands_on[crate] = set(libraries.split())
        self.names.update(self.stands_on, *self.stands_on.values())
        for folder in sorted(glob.glob(os.path.join(root, "crates", "*"))):
            self.read_crate(folder)

    def read_crate(self, folder):
        crate = os.path.basename(folder)
        names = self.of_crate[crate]
        # What is built stands in out/.
        for path in [path for part in ("must-fail", "proofs", "specs", "src")
                     for path in glob.glob("%s/%s/**/*.*" % (folder, part), recursive=True)]:
            self.files.add(os.path.basename(path))
            if path.endswith(".rt"):
                names.add(os.path.splitext(os.path.basename(path))[0])
                for function in list(functions_of(path, crate, self.notes)):
                    self.functions[function.name].append(function)
                    names |= {function.name} | function.clauses
                with open(path, encoding="utf-8") as file:
                    text = file.read()
                names |= set(re.findall(r"\b(?:type|const|mod) (\w+)", text))
                names |= set(re.findall(r"\b(?:struct|enum|trait) (\w+)", text))
                # The variants of enums and the fields of structs.
                names |= set(re.findall(r"^    (?:pub(?:\(\w+\))? )?(\w+)(?:[(,:]| \{)", text, re.M))
            elif path.endswith(".antt"):
                for name, fields in definitions_of(path):
                    names |= {name} | fields
                    self.fields[name] |= fields
        self.names |= names

    def members(self, path):
        """What may stand after the colon: clauses of the function, or fields of the record or of the type."""
        parts = path.split("::")
        found = [function for function in self.functions.get(parts[-1], ()) if holds(function, parts)]
        members = self.of_crate.get(path, set()) | self.fields.get(parts[-1], set())
        for function in found:
            members |= function.clauses
            for fact in function.facts:
                members |= self.fields[fact]
        for function in self.all_functions():
            if function.owner == parts[-1]:
                members |= {function.name} | function.clauses
        return members

    def all_functions(self):
        for functions in self.functions.values():
            yield from functions

    def has_path(self, path):
        """Whether a path of names leads to a function."""
        parts = path.split("::")
        return any(holds(function, parts) for function in self.functions.get(parts[-1], ()))

    def has(self, path):
        """Whether a name, or a path of names, is one of the sources."""
        parts = path.split("::")
        if len(parts) == 1 or not self.functions.get(parts[-1]):
            return all(part in self.names for part in parts)
        return self.has_path(path)

    def has_file(self, path):
        places = [path, "crates/" + path, "crates/*/" + path, "crates/*/src/" + path]
        return any(glob.glob(os.path.join(self.root, place)) for place in places) or path in self.files

    def has_test(self, path, name):
        with open(os.path.join(self.root, path), encoding="utf-8") as file:
            return "def %s(" % name in file.read()

    def cases(self, path):
        """How many cases a table has, or the tables of a folder have."""
        place = os.path.join(self.root, path)
        count = 0
        for table in glob.glob(place + "/*") if os.path.isdir(place) else [place]:
            with open(table, encoding="utf-8") as file:
                count += sum(not re.match(r"#|base( |$)|$", line) for line in file)
        return count

    def calls(self, callers, name):
        """The functions of this name that one of the callers calls. One that is named with its type may stand above
        its caller, which knows it by a trait."""
        parts = name.split("::")
        called = re.compile(r"\b%s(?:::<[^>]*>)?\(" % re.escape(parts[-1]))
        found = []
        for function in self.functions.get(parts[-1], ()):
            for caller in callers:
                known = len(parts) > 1 or function.crate in {caller.crate} | self.reached(caller.crate)
                if holds(function, parts) and known and called.search("".join(caller.body[1:])):
                    found.append(function)
                    break
        return found

    def reached(self, crate):
        found = set()
        for name in self.stands_on.get(crate, ()):
            if name not in found:
                found |= {name} | self.reached(name)
        return found


def holds(function, parts):
    """Whether the parts lead to the function: its crate, its module, its type and its name, in this order."""
    rest = iter(function.path)
    return all(part in rest for part in parts)


def is_cited(word):
    """Whether a word has the form of a name of the sources, and not of a word of a command or of a text."""
    if not NAME.fullmatch(word):
        return False
    if "::" in word:
        return True
    is_type = re.fullmatch(r"[A-Z]\w*[a-z]\w*", word) and re.search(r"[a-z][A-Z]", word)
    return bool(is_type or re.fullmatch(r"[a-z]\w*_\w*", word))


def pairs(line):
    """Owners with the members that a line cites of them."""
    for found in re.finditer(r"(%s): (%s)" % (SPANS, SPANS), line):
        head, _, tail = found[0].rpartition("`: `")
        yield re.findall(SPAN, head + "`"), re.findall(SPAN, "`" + tail)
    for found in re.finditer(r"(?P<members>%s) of (?=(?P<owners>%s)(?P<next> of `)?)" % (SPANS, SPANS), line):
        owners = re.findall(SPAN, found["owners"])
        # In `a` of `b`, `c` of `d` the second clause belongs to what follows it.
        yield owners[:1] if found["next"] else owners, re.findall(SPAN, found["members"])


def faults_of_line(sources, line):
    """What a line cites that is not there, and how many citations it has."""
    count, faults = 0, []
    for owners, members in pairs(line):
        for owner in owners:
            known = sources.members(owner) if NAME.fullmatch(owner) else set()
            for member in members:
                # Words of commands may stand in the same form, and a crate after its own names.
                if known and NAME.fullmatch(member) and member not in sources.of_crate:
                    count += 1
                    if member not in known and not sources.has_path(owner + "::" + member):
                        faults.append("`%s` has no `%s`" % (owner, member))
    for word in re.findall(SPAN, line):
        path = word.rstrip("/")
        if word.startswith(FOLDERS) or re.match(r"muni_\w+/", word) or word.endswith(SUFFIXES):
            count += 1
            if not sources.has_file(path.split(" ")[0]):
                faults.append("there is no file `%s`" % word)
            elif " test_" in path and not sources.has_test(*path.split(" ")):
                faults.append("there is no test `%s`" % word)
        elif is_cited(word):
            count += 1
            if not sources.has(word):
                faults.append("nothing has the name `%s`" % word)
    for path, number in re.findall(r"`(tables/[\w/]+)`, ([\d,]+)\b", line):
        count += 1
        cases = sources.cases(path)
        if cases != int(number.replace(",", "")):
            faults.append("`%s` has %d lines, and not %s" % (path, cases, number))
    for found in re.finditer(r"(?P<number>\d+) calls: (?P<walk>%s(?: → %s)+)" % (SPAN, SPAN), line):
        count += 1
        fault = fault_of_walk(sources, int(found["number"]), re.findall(SPAN, found["walk"]))
        if fault:
            faults.append(fault)
    return count, faults


def fault_of_walk(sources, number, names):
    callers = sources.functions.get(names[0].split("::")[-1], [])
    for before, name in zip(names, names[1:]):
        callers = sources.calls(callers, name)
        if not callers:
            return "`%s` does not call `%s`" % (before, name)
    if number != len(names) - 1:
        return "the walk has %d calls, and not %d" % (len(names) - 1, number)
    return None


def check(sources, documents):
    """How many citations of the documents hold, and a line for each that does not."""
    passed, faults = 0, []
    for document in documents:
        with open(os.path.join(sources.root, document), encoding="utf-8") as file:
            for place, line in enumerate(file, 1):
                count, of_line = faults_of_line(sources, line)
                passed += count - len(of_line)
                faults += ["%s:%d: %s" % (document, place, fault) for fault in of_line]
    return passed, faults
