"""How a script's line is read and written: JSON, canonical text, and what a member may hold.
`docs/integrate/FORMATS.md` has the rules.
"""
import json
import re
from typing import Any, Callable

ROLES = ["root", "targets", "snapshot", "timestamp"]
REPOSITORIES = ["director", "image"]
MOST = 2**53 - 1
LAST_MOMENT, LAST_AT = 253402300799, 4102444800

# whether a member may hold a value
Test = Callable[[Any], bool]
# a line's members, or those of another thing
Named = dict[str, Any]


def finite(text: str) -> float:
    """A number with a fraction or an exponent: none that a float can't hold, and no word such as
    NaN.
    """
    value = float(text)
    if value - value != 0:
        raise ValueError
    return value


def whole(text: str) -> float:
    """A number of digits alone: one that 64 bits can't hold is a float, and so is a negative zero.
    """
    return finite(text) if text == "-0" or len(text) > 20 else int(text)


def nesting(text: str) -> int:
    """How deep lists and objects stand in one another in the text, those of members that come
    again included.
    """
    deepest = now = 0
    for bracket in re.findall(r'"(?:[^"\\]|\\.)*"|[][{}]', text, re.S):
        now += {"[": 1, "{": 1, "]": -1, "}": -1}.get(bracket, 0)
        deepest = max(deepest, now)
    return deepest


def value_of(text: str | bytes) -> Any:
    """The value of the text, a string or bytes. Of members of one name the last counts, but each
    has to be JSON. What is no JSON is a ValueError.
    """
    dropped = []

    def members(pairs: list[tuple[str, Any]]) -> dict[str, Any]:
        kept = dict(pairs)
        dropped.extend(pairs if len(kept) < len(pairs) else [])
        return kept

    try:
        text = text.decode("utf-8") if isinstance(text, bytes) else text
        if nesting(text) > 127:
            raise ValueError
        value = json.loads(text, parse_constant=finite, parse_float=finite, parse_int=whole,
                           object_pairs_hook=members)
        json.dumps([value, dropped], ensure_ascii=False).encode("utf-8")
    except RecursionError:
        raise ValueError from None
    return value


def canonical(value: Any) -> str:
    return json.dumps(value, sort_keys=True, separators=(",", ":"))


def is_count(value: Any, least: int = 0, most: int = MOST) -> bool:
    return isinstance(value, int) and not isinstance(value, bool) and least <= value <= most


def text(pattern: str) -> Test:
    return lambda v: isinstance(v, str) and re.fullmatch(pattern, v, re.A) is not None


IDENT, FILE = text(r"[A-Za-z0-9._-]{1,64}"), text(r"[A-Za-z0-9._/-]{1,128}")
NOTE, HASH, SECOND_HASH = text(r"[ -~]{0,256}"), text(r"[0-9A-Fa-f]{64}"), text(r"[0-9A-Fa-f]{128}")
KEY, SIG = text(r"([0-9A-Fa-f]{2}){1,256}"), text(r"([0-9A-Fa-f]{2}){1,512}")
KEYID, METHODS = text(r"[ -~]{1,128}"), text(r"[ -~]{1,64}")
COUNT, LIST, OBJECT = is_count, lambda v: isinstance(v, list), lambda v: isinstance(v, dict)
