#!/usr/bin/env python3
"""Makes the parts of pages that are made of tables. Of launcher/commands and launcher/options: the commands of
docs/muni.1, the options of docs/muni.bash, and the table of options of docs/FORMATS.md. Of docs/refusals.json: the
table of refusals of docs/FORMATS.md, that of the tests of terms of docs/RULES.md, web/refusals.js, and the words of the
client in Python.

    tests/documents/made_pages.py
"""
import collections
import json
import pathlib
import re
import textwrap

ROOT = pathlib.Path(__file__).resolve().parents[2]
Option = collections.namedtuple("Option", "command name value use form should means")
Command = collections.namedtuple("Command", "name what example")
MADE_OF_TABLES = "# Made of the launcher's tables by tests/documents/made_pages.py.\n"


def read(path):
    return (ROOT / path).read_text(encoding="utf-8")


def rows(path, row):
    return [row(*line.split("|")) for line in read(path).splitlines() if line and not line.startswith("#")]


def said(option):
    """What a page says of an option: its form, what it means, and when it is given."""
    use, _, kinds = option.use.partition(" ")
    text = option.should + ": " + option.means
    if kinds:
        named = " or ".join("`--kind=%s`" % kind for kind in kinds.split())
        text += "; %s %s" % ("exactly with" if use == "needed" else "only with", named)
    elif use in ("may", "either") and "left out" not in option.means:
        text += "; it may be left out"
    return text


def is_flag(option):
    """Whether an option has no value."""
    return option.name.startswith("--") and not option.value


def roff(text):
    """A text of the tables for the manual: words in back quotes are bold."""
    text = text.replace("\\", "\\e")
    return re.sub(r"`([^`]*)`", lambda found: r"\fB%s\fR" % found[1].replace("-", r"\-"), text)


def manual(commands, options):
    """The part of docs/muni.1 on the commands."""
    lines = []
    for command in commands:
        lines.append(".SS " + command.name.replace("-", r"\-"))
        lines += textwrap.wrap(roff(command.what), 115, break_on_hyphens=False)
        for option in options[command.name]:
            name = option.name.replace("-", r"\-")
            lines += [".TP", ".BI %s= %s" % (name, option.value) if option.value else
                      (".B " if is_flag(option) else ".I ") + name]
            lines += textwrap.wrap(roff(said(option)), 115, break_on_hyphens=False)
    return "".join(line + "\n" for line in lines)


def completions(commands, options):
    """The functions of docs/muni.bash that have the commands, their options and the values of those with a few."""
    cases = "".join("    %s) echo %s ;;\n" % (command.name, " ".join(option.name for option in options[command.name]))
                    for command in commands if any(option.value for option in options[command.name]))
    flags = dict.fromkeys(option.name for each in options.values() for option in each if is_flag(option))
    values = {option.name: option.form.partition(" ")[2] for each in options.values() for option in each
              if option.form.startswith("words ")}
    return "".join([
        "_muni_commands='%s'\n" % " ".join(command.name for command in commands),
        "_muni_flags=' %s '\n\n" % " ".join(flags),
        "_muni_options() {\n    case $1 in\n", cases, "    esac\n}\n\n",
        "_muni_values() {\n    case $1 in\n",
        "".join("    %s) echo %s ;;\n" % value for value in values.items()), "    esac\n}\n"])


def required(option, options):
    """Whether a command has to have an option, by its use among the options of the command."""
    use, _, kinds = option.use.partition(" ")
    if kinds:
        return "%s with %s" % ("exactly" if use == "needed" else "only",
                               " or ".join("`--kind=%s`" % kind for kind in kinds.split()))
    if use in ("one", "either"):
        return "exactly one of these" if use == "one" else "at most one of these"
    return {"needed": "yes", "may": "no", "many": "no, and up to 40 times"}[use]


def table(options):
    """The table of options for docs/FORMATS.md. An option has a row for the commands that take it alike, and options
    that are alike share it."""
    commands, names = collections.defaultdict(list), collections.defaultdict(list)
    for each in options.values():
        for option in each:
            word = "`%s`" % (option.name + ("=" + option.value if option.value else ""))
            form = option.should if option.value else "none"
            commands[word, required(option, each), form].append("`%s`" % option.command)
    for (word, needed, form), of in commands.items():
        names[", ".join(of), needed, form if "one of" not in needed else ""].append((word, form))
    lines = ["| option | of | required | form of the value |", "|---|---|---|---|"]
    for (of, needed, _), alike in names.items():
        forms = list(dict.fromkeys(form for _, form in alike))
        lines.append("| %s | %s | %s | %s |" % (", ".join(word for word, _ in alike), of, needed, "; ".join(forms)))
    return "".join(line + "\n" for line in lines)


def todo_of(refusal):
    """What to do about a refusal, for a document. Of a conflict it differs between an issue and a trade."""
    todo = refusal["todo"]
    if isinstance(todo, dict):
        todo = ". ".join("%s: %s" % (("An" if what == "issue" else "a") + " " + what, text)
                         for what, text in todo.items())
        todo = todo[0].lower() + todo[1:].replace(". a trade", ". A trade")
    return todo + (". " + refusal["more"] if "more" in refusal else "")


def table_of_refusals(refusals):
    lines = ["| number | name | after the name | what it means | what to do |", "|---|---|---|---|---|"]
    for each in refusals:
        means = each["means"] + ("; of `quote-one`, " + each["quote_one"] if "quote_one" in each else "")
        lines.append("| %d | %s | %s | %s | %s |" % (each["number"], each["name"], each["rest"], means, todo_of(each)))
    return "".join(line.replace("|  |", "| |") + "\n" for line in lines)


def table_of_faults(faults):
    """The tests of terms. Those of calls come last, and their fault has the date of the call."""
    lines = ["| test | fault | number |", "|---|---|---|"]
    for each in faults:
        end = ", with the date" if each.get("date", False) else ""
        lines.append("| %s%s | `%s`%s | %d |" % (each.get("begin", ""), each["test"], each["name"], end,
                                                each["number"]))
    return "".join(line + "\n" for line in lines)


def script_of_refusals(texts):
    """The module of the page: of each refusal its name, what it means and what to do, and of each fault of terms its
    name, the field that its test looks at, and the test."""
    def lines(rows):
        return "".join("  %d: %s,\n" % (number, json.dumps(row, ensure_ascii=False)) for number, row in rows)

    return "".join([
        "// Made of docs/refusals.json by tests/documents/made_pages.py.\n\n", "export const REFUSALS = {\n",
        lines((each["number"], [each["name"], each["means"], each["todo"]]) for each in texts["refusals"]), "};\n\n",
        "// The tests of terms by the number of their fault, and the field that each looks at.\n",
        "export const FAULTS = {\n",
        lines((each["number"], [each["name"], each["field"], each["test"]]) for each in texts["faults"]), "};\n"])


def module_of_refusals(refusals):
    """The module of the client in Python: of each refusal what it means and what to do."""
    rows = "".join("    %d: (\n        %s,\n        %s,\n    ),\n" % (
        each["number"], wrapped(each["means"]), wrapped(todo_of({"todo": each["todo"]}))) for each in refusals)
    return ('"""What each refusal means and what to do about it.\n\n'
            'Made of docs/refusals.json by tests/documents/made_pages.py.\n"""\n\n'
            "WORDS: dict[int, tuple[str, str]] = {\n" + rows + "}\n")


def wrapped(text):
    """A text as literals of Python, one a line."""
    lines = textwrap.wrap(text, 100, drop_whitespace=False, break_on_hyphens=False)
    return ("\n        ").join(json.dumps(line, ensure_ascii=False) for line in lines)


def with_table(text, head, table):
    """The text with the table that begins by this head replaced."""
    begin = text.index(head)
    end = text.index("\n\n", begin) + 1
    return text[:begin] + table + text[end:]


def between(text, begin, end, new):
    """The text with what stands between two lines replaced."""
    before, found, after = text.partition(begin)
    if not found or end not in after:
        raise ValueError("a page lacks the lines %r and %r" % (begin, end))
    return before + begin + new + after[after.index(end):]


def pages():
    """Each page with the text that it has to have."""
    commands = rows("launcher/commands", Command)
    options = collections.defaultdict(list)
    for option in rows("launcher/options", Option):
        options[option.command].append(option)
    formats = with_table(read("docs/FORMATS.md"), "| option | of | required | form of the value |",
                         table({name: each for name, each in options.items() if name != "quote-one"}))
    texts = json.loads(read("docs/refusals.json"))
    return {
        "docs/RULES.md": with_table(read("docs/RULES.md"), "| test | fault | number |",
                                    table_of_faults(texts["faults"])),
        "web/refusals.js": script_of_refusals(texts),
        "clients/python/src/muni/_refusals.py": module_of_refusals(texts["refusals"]),
        "docs/muni.1": between(read("docs/muni.1"), ".SH COMMANDS\n", ".SS \\-\\-help, \\-\\-version\n",
                               manual(commands, options)),
        "docs/muni.bash": between(read("docs/muni.bash"), MADE_OF_TABLES, "\n# The values of an option that begin",
                                  completions(commands, options)),
        "docs/FORMATS.md": with_table(formats, "| number | name | after the name |",
                                      table_of_refusals(texts["refusals"])),
    }


def main():
    for path, text in pages().items():
        (ROOT / path).write_text(text, encoding="utf-8")


if __name__ == "__main__":
    main()
