"""What is drawn at random, so that what fails is shrunk: rows, hostile fields, mutated bytes, and requests."""
from __future__ import annotations

import functools
import json
import random
from collections.abc import Callable

from hypothesis import strategies as st

# A part of a row or a request is drawn from few bytes, since hypothesis ends an example after 8,192 of them.
FIELDS = [
    b"", b" ", b"0", b"1", b"-0", b"-1", b"-", b"+5", b"5.", b".5", b"5.0", b"1e9", b"nan", b"0x10", b"1_000",
    b"00000000000000000004", b"9" * 20, b"9" * 5000, b"4.1234", b"4.12345", b"4.1234567", b"4.12345678",
    b"999.999", b"999.9999", b"999.999999", b"1000", b"-5", b"-5.0001", b"-90", b"-90.0001", b"-99.9999", b"-100",
    b"100", b"100.0001", b"30", b"30.0001", b"1000000000", b"1000000001", b"4294967296", b"18446744073709551616",
    b"2024-02-29", b"2023-02-29", b"2024-2-1", b"2024-13-01", b"2024-00-10", b"1899-12-31", b"1900-01-01",
    b"1901-12-31", b"2199-12-31", b"2200-01-01", b"9999-12-31", b"2024-04-01 ", b"20240401", b"2024/04/01",
    b"periodic", b"zero", b"at-redemption", b"discount", b"Periodic", b"buy", b"sell", b"BUY", b"yield", b"price",
    b"rate", b"30/360", b"actual/365", b"actual/360", b"123456AA3", b"123456AA4", b"123456aa3", b"123456AA",
    b"000000000", b"A" * 16, b"A" * 17, b"a" * 20, b"a" * 21, b"alpha", b"ALPHA", b"A B", b"x" * 60, b"x" * 61,
    b"x" * 70000, b"2034-01-01:100", b"2034-01-01:100 ", b"2034-01-01", b"2034-01-01:", b":100",
    b"2034-01-01:100  2035-01-01:100", b"2034-01-01:100+", b"2034-01-01:100!", b"2034-01-01:100! ", b"100+", b"+",
    b"!", b"2034-01-01:100++", b"2034-01-01:100+!", b"2034-01-01:+", b"2034-01-01:!100", b"2034-01-01:100 +",
    b"2034-01-01+:100", b"2030-01-01:100! 2034-01-01:100+", b"2030-01-01:102+ 2034-01-01:100+",
    b" ".join(b"%d-01-01:100" % year for year in range(2024, 2065)),
    b"\x00", b"\xff", b"\xc3\xa9", b"\xef\xbb\xbf4", b"4\x00", b"4\r", b"\t4", b"'; DROP TABLE issues; --",
    b"../../etc/passwd", b"%s%n", b"=1+1", b"a,b", b'a"b', b'""', b"a\nb", b"a\r\nb",
]
CUSIPS = [b"123456AA3", b"123456AB1", b"990010AA8", b"990021AA5", b"000000000", b"123456AA4"]

Draw = Callable[[st.SearchStrategy], object]


@functools.cache
def whole(least: int, most: int) -> st.SearchStrategy[int]:
    return st.integers(least, most)


@functools.cache
def one_in(count: int) -> st.SearchStrategy[bool]:
    """True once in so many draws."""
    return st.sampled_from([False] * (count - 1) + [True])


# True is another value than 1.
@functools.lru_cache(maxsize=None, typed=True)
def any_of(*values: object) -> st.SearchStrategy:
    return st.sampled_from(values)


@st.composite
def one_more(draw: Draw, element: st.SearchStrategy, mean: int) -> list:
    """A list of one element, or at the end of a list an empty one."""
    return [draw(element)] if draw(any_of(False, *[True] * mean)) else []


@st.composite
def many(draw: Draw, element: st.SearchStrategy, mean: int, most: int) -> list:
    """A list that is longer than those of hypothesis, and of which any element can be left out when it is shrunk."""
    found: list = []
    step = one_more(element, mean)
    while len(found) < most and (drawn := draw(step)):
        found += drawn
    return found


hostile_fields = st.sampled_from(FIELDS)


@st.composite
def mutated(draw: Draw, data: st.SearchStrategy[bytes]) -> bytes:
    """Bytes with one to four of them changed, dropped, doubled, put in or cut off."""
    kept = bytearray(draw(data))
    for _ in range(draw(whole(1, 4))):
        place = draw(whole(0, len(kept)))
        how = draw(whole(0, 5))
        if how == 0 and place < len(kept):
            kept[place] = draw(whole(0, 255))
        elif how == 1:
            del kept[place:place + draw(whole(1, 3))]
        elif how == 2:
            kept[place:place] = bytes([draw(any_of(*b'\r\n",:{}[] \x00\xff-.0A'))])
        elif how == 3:
            kept[place:place] = kept[place:place + draw(whole(1, 40))]
        elif how == 4:
            end = draw(whole(0, len(kept)))
            kept[min(place, end):max(place, end)] = b""
        else:
            del kept[place:]
    return bytes(kept)


@st.composite
def noise(draw: Draw, alphabet: bytes, longest: int) -> bytes:
    """Bytes of an alphabet, by a seed, since there are too many to draw each."""
    source = random.Random(draw(whole(0, 65_535)))
    return bytes(source.choices(alphabet, k=draw(whole(0, longest))))


# Rows of imports

def day(draw: Draw) -> bytes:
    return b"%d-%02d-%02d" % (draw(whole(2019, 2035)), draw(whole(1, 12)),
                              draw(any_of(1, 1, 1, 15, 28, 29, 30, 31, 2, 7, 12, 20)))


def mark(draw: Draw, is_last: bool) -> str:
    """What stands after the price of a call. A `!` is right after the last one alone."""
    if is_last:
        return draw(any_of("", "", "+", "+", "!"))
    return draw(any_of("!", *["", "", "", "+"] * 6))


def issue(draw: Draw) -> list[bytes]:
    kind = draw(any_of(b"periodic", b"periodic", b"zero", b"at-redemption", b"discount"))
    is_note = kind in (b"at-redemption", b"discount")
    year, month, place = draw(whole(2018, 2023)), draw(whole(1, 6)), draw(any_of(1, 15, 28))
    dated = b"%d-%02d-%02d" % (year, month, draw(any_of(1, place)))
    first = b"%d-%02d-%02d" % (year, month + 6, place) if kind == b"periodic" else b""
    if is_note:
        maturity = b"%d-%02d-%02d" % (year + 1, draw(whole(1, 12)), draw(whole(1, 28)))
        days = draw(any_of(b"", b"30/360", b"actual/365"))
    else:
        maturity = b"%d-%02d-%02d" % (year + draw(whole(2, 40)), month, place)
        days = draw(any_of(b"", b"", b"", b"", b"", b"", b"", b"30/360", b"actual/365"))
    coupon = b"%d.%d" % (draw(whole(1, 9)), draw(any_of(0, 5, 25, 125, 4321567))) if kind in (
        b"periodic", b"at-redemption") else b""
    calls = b""
    if not is_note and draw(any_of(False, False, False, True, True)):
        count = draw(whole(1, 8))
        calls = b" ".join(b"%d-%02d-%02d:%d" % (year + 3 + each, month, place, draw(whole(90, 110)))
                          + mark(draw, each == count - 1).encode() for each in range(count))
    return [b"issue", draw(any_of(*CUSIPS)), b"BOND %d" % draw(whole(1, 3)), kind, dated, first, maturity,
            coupon, calls, days]


def amendment(draw: Draw) -> list[bytes]:
    """Other terms of an issue, or the same ones."""
    _, cusip, *terms = issue(draw)
    return [b"amend", cusip, b"%d" % draw(any_of(1, 2, 2, 2, 2, 3, 3, 4)), *terms]


def named_terms(draw: Draw) -> list[bytes]:
    """The number of the terms by which a trade is figured, which mostly is left out."""
    return [draw(any_of(b"", b"1", b"1", b"2", b"3"))] if draw(one_in(4)) else []


def asked(draw: Draw) -> list[bytes]:
    basis = draw(any_of(b"yield", b"yield", b"price", b"price", b"rate"))
    value = b"%d.%d" % ((draw(whole(80, 130)), draw(whole(0, 9999))) if basis == b"price" else
                        (draw(whole(0, 9)), draw(whole(0, 999))))
    return [draw(any_of(*CUSIPS)), draw(any_of(b"buy", b"sell")),
            b"%d" % draw(any_of(1, 5000, 25000, 1000000000)), day(draw), basis, value,
            draw(any_of(b"", b"", b"0", b"0.5", b"0.125"))]


def fields_of_row(draw: Draw) -> list[bytes]:
    """The fields of a row that reads."""
    what = draw(whole(0, 8))
    if what < 2:
        return issue(draw)
    if what == 8:
        return amendment(draw)
    desk = draw(any_of(b"ALPHA", b"BETA"))
    if what < 5:
        return [b"trade", desk, b"T%d" % draw(whole(1, 30)), *asked(draw), *named_terms(draw)]
    key = [desk, b"T%d" % draw(whole(1, 10)), b"%d" % draw(any_of(1, 2, 2, 2, 3, 3, 4, 5))]
    return [b"correct", *key, *asked(draw), *named_terms(draw)] if what < 7 else [b"cancel", *key]


def spoil_row(draw: Draw, fields: list[bytes]) -> None:
    """Makes something wrong in a row, or nothing."""
    how = draw(whole(0, 9))
    place = draw(whole(0, len(fields) - 1))
    if how < 4:
        fields[place] = draw(hostile_fields)
    elif how == 4:
        del fields[place]
    elif how == 5:
        field = draw(hostile_fields)
        fields[place:place] = [field] * draw(any_of(1, 1, 2, 300 if len(field) < 100 else 3))
    elif how == 6:
        other = draw(whole(0, len(fields) - 1))
        fields[place], fields[other] = fields[other], fields[place]
    elif how == 7 and fields[-1] == b"":
        fields.pop()


@st.composite
def row(draw: Draw) -> bytes:
    """A row as text, with the quotes and the end that come."""
    fields = fields_of_row(draw)
    if draw(any_of(False, False, True, True, True)):
        spoil_row(draw, fields)
    quoted = draw(whole(0, 39))
    is_bare = draw(one_in(10))
    for place, field in enumerate(fields):
        needed = any(byte in field for byte in b',"\r\n')
        if needed and not is_bare or place == quoted:
            fields[place] = b'"' + field.replace(b'"', b'""') + b'"'
    return b",".join(fields) + draw(any_of(b"\n", b"\n", b"\n", b"\r\n", b"\r", b"\n\n"))


def texts_of(rows: st.SearchStrategy[list[bytes]]) -> st.SearchStrategy[bytes]:
    """Rows as one text: as they are, after a mark of the byte order, or with bytes changed."""
    plain = rows.map(b"".join)
    return st.one_of(plain, plain, plain, plain, plain, plain.map(lambda text: b"\xef\xbb\xbf" + text), mutated(plain),
                     mutated(plain))


# Texts of imports, most of them of hundreds of rows.
texts = st.one_of(
    texts_of(many(row(), 100, 250)),
    texts_of(many(row(), 100, 250)),
    texts_of(many(row(), 100, 250)),
    noise(bytes(range(256)), 8000),
    noise(b'trade,cancel"\n\r,,123', 8000),
)


# Requests over HTTP

ISSUE = {"cusip": "123456AA3", "name": "RIVERTON WATER 5S 2025", "kind": "periodic", "dated": "2020-01-01",
         "first": "2020-07-01", "maturity": "2025-01-01", "coupon": "5"}


def head(method: str, path: str, fields: list[tuple[str, object]], version: str = "HTTP/1.1") -> bytes:
    lines = [f"{method} {path} {version}", *(f"{name}: {value}" for name, value in fields)]
    return "\r\n".join(lines).encode() + b"\r\n\r\n"


def post(path: str, members: dict[str, object], fields: tuple[tuple[str, object], ...] = ()) -> bytes:
    body = json.dumps(members).encode()
    return head("POST", path, [("Host", "localhost"), *fields, ("Content-Length", len(body))]) + body


def key_of_trade(draw: Draw) -> dict[str, object]:
    return {"desk": draw(any_of("ALPHA", "BETA")), "reference": f"T{draw(whole(1, 9))}"}


def asked_members(draw: Draw) -> dict[str, object]:
    basis = draw(any_of("yield", "yield", "price", "rate"))
    value = f"{draw(whole(90, 120) if basis == 'price' else whole(0, 9))}.{draw(whole(0, 999))}"
    settle = f"20{draw(whole(19, 26)):02}-{draw(whole(1, 12)):02}-{draw(whole(1, 28)):02}"
    return {"cusip": draw(any_of("123456AA3", "123456AA3", "990021AA5", "000000000")),
            "par": draw(any_of("1", "25000", "1000000000")), "basis": basis, "value": value, "settle": settle}


def row_members(draw: Draw) -> dict[str, str]:
    """Those of a row of another firm's figures: what is asked, or a trade that may be kept, and some figures."""
    figures = {"price": f"{draw(whole(95, 110))}.{draw(whole(0, 999)):03}", "yield": draw(any_of("4", "4.000", "3.99")),
               "redemption": draw(any_of("2045-01-01", "2024-01-01", "")), "days": str(draw(whole(0, 180))),
               "total": draw(any_of("25493.75", "", "0.1"))}
    stated = draw(st.sets(st.sampled_from(sorted(figures)), max_size=2))
    key = key_of_trade(draw) if draw(st.booleans()) else {}
    asked = {} if key and draw(st.booleans()) else asked_members(draw)
    return {**key, **asked, **{name: figures[name] for name in sorted(stated)}}


def issue_members(draw: Draw) -> dict[str, object]:
    members = dict(ISSUE, maturity=f"20{draw(whole(25, 60))}-{draw(any_of('01', '07', '02'))}-01",
                   cusip=draw(any_of("123456AA3", "990021AA5", "123456AA4")))
    if draw(st.booleans()):
        count = draw(whole(0, 6))
        members["calls"] = [{"date": f"20{24 + each}-01-01", "price": f"10{9 - each}{mark(draw, each == count - 1)}"}
                            for each in range(count)]
    if draw(one_in(3)):
        members["days"] = draw(any_of("30/360", "actual/365", ""))
    return members


@st.composite
def right_request(draw: Draw) -> bytes:
    """A request that reads."""
    what = draw(whole(0, 10))
    if what == 0:
        return post("/issues", issue_members(draw))
    if what < 4:
        fee = {"fee": draw(any_of("", "0", "0.5"))} if draw(one_in(3)) else {}
        side = draw(any_of("buy", "sell"))
        return post("/trades", {**key_of_trade(draw), **asked_members(draw), **fee, "side": side})
    if what == 4:
        return post("/corrections", {**key_of_trade(draw), **asked_members(draw), "side": "buy",
                                     "number": str(draw(whole(1, 4)))})
    if what == 5:
        return post("/cancels", {**key_of_trade(draw), "number": str(draw(whole(1, 4)))})
    if what == 6:
        each = {"each": draw(any_of(True, True, False))} if draw(st.booleans()) else {}
        return post("/quotes", {**asked_members(draw), **each})
    if what == 7:
        return post("/checks", row_members(draw))
    path = draw(any_of("/trades/{desk}/{reference}", "/lists/{desk}", "/lists/{desk}/{reference}", "/issues/{cusip}",
                       "/trades/{desk}/{reference}/{number}", "/positions/{desk}", "/latest/{desk}"))
    number, cusip = draw(whole(0, 4)), draw(any_of("123456AA3", "990021AA5", "000000000"))
    target = path.format(**key_of_trade(draw), number=number, cusip=cusip) + draw(any_of("", "?", "?x=y"))
    return head("GET", target, [("Host", "localhost")], draw(any_of("HTTP/1.1", "HTTP/1.0")))


@st.composite
def odd_members(draw: Draw) -> bytes:
    """A body of which members are of another kind, or missing."""
    members = {**ISSUE, **key_of_trade(draw), **asked_members(draw), "side": "buy", "number": "1", "each": False}
    for _ in range(draw(whole(1, 3))):
        text = draw(hostile_fields).decode("utf-8", "replace")
        values = [text, text, text, 4, 4.5, None, True, [], {}, [text], {"date": text}, "x" * 60_000]
        members[draw(st.sampled_from(sorted(members)))] = values[draw(whole(0, len(values) - 1))]
    if draw(st.booleans()):
        del members[draw(st.sampled_from(sorted(members)))]
    path = draw(any_of("/issues", "/trades", "/corrections", "/cancels", "/quotes", "/checks"))
    if path == "/checks" and draw(st.booleans()):
        # A check has none of these, so that the others are looked at.
        members = {name: value for name, value in members.items() if name not in ("each", "name", "number")}
    return post(path, members)


@st.composite
def odd_fields(draw: Draw) -> bytes:
    """Fields of a head that say a length, a coding or a host that is none."""
    lengths = (0, 1, 133, 65_536, 65_537, 10 ** 10, "-1", "+5", "1e3", "0x10", "", "1, 1", 99_999_999_999)
    hosts = [("Host", "x" * length) for length in (1, 8_000, 20_000)]
    others = [("Transfer-Encoding", "chunked"), ("transfer-encoding", ""), ("Expect", "100-continue"),
              ("X-" + "y" * 300, "z"), ("Connection", "keep-alive")]
    field = st.one_of(st.sampled_from([("Content-Length", each) for each in lengths]), st.sampled_from(hosts),
                      st.sampled_from(others))
    return post(draw(any_of("/trades", "/issues", "/quotes", "/nothing")), asked_members(draw),
                tuple(draw(st.lists(field, max_size=4))))


@st.composite
def odd_line(draw: Draw) -> bytes:
    """A first line with a method, a path or a version that is none."""
    method = draw(any_of("GET", "POST", "PUT", "DELETE", "HEAD", "OPTIONS", "get", "", "G@T", "PRI"))
    path = draw(any_of("/trades", "/issues", "/", "", "*", "//", "/trades/", "/trades/ALPHA", "/trades/ALPHA/T1/",
                       "/trades/alpha/T1", "/lists/ALPHA/..", "/%74rades", "/../etc/passwd", "http://x/trades",
                       "/issues/", "/issues/123456aa3", "/trades/ALPHA/T1/x", "/positions", "/latest/ALPHA/T1",
                       "/lists/\u00e9", "/lists/" + "A" * 17, "/trades?" + "q" * 10_000))
    return head(method, path, [("Host", "localhost")] * draw(any_of(0, 1, 63, 64, 65, 200)),
                draw(any_of("HTTP/1.1", "HTTP/1.0", "HTTP/2.0", "HTTP/0.9", "http/1.1", "")))


@st.composite
def odd_json(draw: Draw) -> bytes:
    """A body that is deep, or no object."""
    depth = draw(any_of(1, 100, 126, 127, 128, 5_000))
    body = draw(any_of(b"[" * depth + b"]" * depth, b'{"a":' * depth + b"1" + b"}" * depth,
                       b'"' + b"\\u0041" * depth + b'"', b"{}", b"null", b"", b'{"cusip":"\\ud800"}', b"1" * depth,
                       b"\xff", b"{}{}", b"[" * depth))
    return head("POST", draw(any_of("/quotes", "/checks")), [("Content-Length", len(body))]) + body


@st.composite
def cut(draw: Draw) -> bytes:
    data = draw(right_request())
    return data[:draw(whole(0, len(data) - 1))]


@st.composite
def reordered(draw: Draw) -> bytes:
    return b"\r\n".join(draw(st.permutations(draw(right_request()).split(b"\r\n"))))


long_names = st.builds(lambda length, count: head("GET", "/lists/ALPHA", [("A" * length, "b")] * count),
                       any_of(1, 200, 17_000), any_of(1, 70))

# The bytes of a connection: of each kind as often as it stands here.
requests = st.one_of(
    right_request(), right_request(), mutated(right_request()), mutated(right_request()), mutated(right_request()),
    cut(), st.builds(lambda one, other: one + other, right_request(), right_request()), reordered(), odd_members(),
    odd_fields(), odd_line(), noise(bytes(range(256)), 17_000), long_names, odd_json(),
)
