"""JSON as the desk reads it."""
from __future__ import annotations

import json
import re

# How deep arrays and objects may stand in one another.
DEEPEST = 127
TEXT = re.compile(r'"(?:[^"\\]++|\\.)*+"', re.DOTALL)
# What rounds to no double: half way from the greatest one to 2^1024, and from there on.
TOO_LARGE = 2**1024 - 2**970
PLACES = len(str(TOO_LARGE))


class BadJson(Exception):
    """Bytes that are no value of JSON."""


def value(body: bytes) -> object:
    """The value of a body. Of two members of one name the last one stays. Numbers count for nothing."""
    try:
        text = body.decode()
        refuse_depth(text)
        found = json.loads(text, parse_int=number, parse_float=number, parse_constant=number)
        # Half of a pair of escapes is no character.
        json.dumps(found, ensure_ascii=False).encode()
    except ValueError as error:
        raise BadJson from error
    return found


def refuse_depth(text: str) -> None:
    depth = 0
    for bracket in re.findall(r"[][{}]", TEXT.sub("", text)):
        depth += 1 if bracket in "[{" else -1
        if depth > DEEPEST:
            raise BadJson


def number(text: str) -> float:
    """Takes a number that is no text, no Boolean, no array and no object."""
    if not is_double(text):
        raise BadJson
    return 0.0


def is_double(text: str) -> bool:
    """Whether a number is one that a double can come near. `NaN` and `Infinity` are none."""
    found = re.fullmatch(r"-?([0-9]+)(?:\.([0-9]+))?(?:[eE]([+-]?)([0-9]+))?", text)
    if not found:
        return False
    whole, part, sign, power = found[1], found[2] or "", found[3], (found[4] or "0").lstrip("0")
    digits = (whole + part).lstrip("0")
    if not digits:
        return True
    if len(power) > 9:
        return sign == "-"
    exponent = int(power or "0") * (-1 if sign == "-" else 1) - len(part)
    if len(digits) + exponent != PLACES:
        return len(digits) + exponent < PLACES
    shown = digits[:PLACES].ljust(PLACES, "0")
    return int(shown) < TOO_LARGE
