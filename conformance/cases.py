"""A case of cases.csv: its columns, the words that ask it, and the lines that answer it."""
import csv
import decimal
import itertools
import pathlib

FILE = pathlib.Path(__file__).resolve().parent / "cases.csv"
ASKED = [
    "case",
    "tries",
    "command",
    "cusip",
    "kind",
    "days",
    "dated",
    "first",
    "maturity",
    "coupon",
    "calls",
    "settle",
    "redeemed",
    "given",
    "value",
    "side",
    "par",
    "fee",
]
ANSWERED = [
    "price",
    "yield",
    "redemption",
    "at",
    "label",
    "accrued_days",
    "principal",
    "accrued",
    "commission",
    "total",
    "refusal",
]
# The lines of the sensitivities, by their columns. In a column two numbers may stand, which both are right.
RISK = {
    "current_yield": "CURRENT YIELD",
    "duration": "DURATION",
    "convexity": "CONVEXITY",
    "dv01": "DV01",
}
COLUMNS = ASKED + ANSWERED + ["exact", *RISK]

# The desk under which a case of the command `trade` is entered.
DESK = "CASES"


def read(path=FILE):
    """The cases of a file, each a dictionary from its columns to their texts."""
    with open(path, newline="", encoding="ascii") as file:
        return list(csv.DictReader(file))


def write(file, rows):
    writer = csv.DictWriter(file, COLUMNS, lineterminator="\n")
    writer.writeheader()
    writer.writerows(rows)


def family(row):
    """The name of a case without its number."""
    return row["case"].rpartition("-")[0]


def words(row):
    """The words that ask a case of `quote-one`, `quote` or `risk`."""
    if row["command"] == "quote-one":
        return ["quote-one"] + [row[name] for name in ("coupon", "maturity", "settle", "redeemed", "value")]
    options = ["kind", "dated", "first", "maturity", "coupon", "days", "settle", "par"]
    said = ["--%s=%s" % (name, row[name]) for name in options if row[name]]
    said += ["--call=" + call for call in row["calls"].split()]
    said.append("--%s=%s" % (row["given"], row["value"]))
    return ["quote"] + said + ["--risk"] * (row["command"] == "risk")


def reference(row):
    """The reference under which a case of `trade` is entered."""
    return row["case"].replace("-", "")


def imported(row):
    """The two rows of an import that ask a case of `trade`: its issue and its trade."""
    issue = [row["cusip"], "CASE"] + [
        row[name] for name in ("kind", "dated", "first", "maturity", "coupon", "calls", "days")
    ]
    trade = [row[name] for name in ("cusip", "side", "par", "settle", "given", "value", "fee")]
    return "issue,%s\ntrade,%s,%s,%s\n" % (",".join(issue), DESK, reference(row), ",".join(trade))


def answers(row):
    """The right answers: the lines of the figures, or the line of the refusal. If a row has both, both are right."""
    right = []
    if row["price"]:
        right += [row["price"] + "\n"] if row["command"] == "quote-one" else [figures(row) + more for more in risks(row)]
    if row["refusal"]:
        right.append(row["refusal"] + "\n")
    return right


def figures(row):
    source = {"price": "COMPUTED", "yield": "COMPUTED"} | {row["given"]: "GIVEN"}
    lines = ["PRICE %s %s" % (row["price"], source["price"]), "YIELD %s %s" % (row["yield"], source["yield"])]
    if row["given"] == "rate":
        lines.append("RATE %.4f GIVEN" % decimal.Decimal(row["value"]))
    lines.append("REDEMPTION %s %s %s" % (row["redemption"], row["at"], row["label"]))
    lines.append("ACCRUED DAYS " + row["accrued_days"])
    lines += [
        "%s %s" % (name.upper(), row[name]) for name in ("principal", "accrued", "commission", "total") if row[name]
    ]
    return "".join(line + "\n" for line in lines)


def risks(row):
    """The lines of the sensitivities in each way that is right."""
    lines = [["%s %s\n" % (name, each) for each in row[column].split()] for column, name in RISK.items() if row[column]]
    return map("".join, itertools.product(*lines))


def set_answer(row, text):
    """Puts the lines of an answer into their columns."""
    for line in text.splitlines():
        name, _, rest = line.partition(" ")
        if name == "REFUSED":
            row["refusal"] = line
        elif line.startswith("ACCRUED DAYS "):
            row["accrued_days"] = line.rpartition(" ")[2]
        elif name == "REDEMPTION":
            row["redemption"], row["at"], row["label"] = rest.split(" ", 2)
        elif name in ("PRICE", "YIELD"):
            row[name.lower()] = rest.partition(" ")[0]
        elif name in ("PRINCIPAL", "ACCRUED", "COMMISSION", "TOTAL"):
            row[name.lower()] = rest
        elif name in ("CURRENT", "DURATION", "CONVEXITY", "DV01"):
            column = next(column for column, head in RISK.items() if line.startswith(head))
            row[column] = line.rpartition(" ")[2]
        elif row["command"] == "quote-one":
            row["price"] = line
