"""Values of JSON, as they are read of bytes."""
import json
import re
from typing import Any

DEEPEST = 127  # arrays and objects within one another
TEXT = re.compile(r'"(?:[^"\\]|\\.)*"')


def none(_: str) -> float:
    raise ValueError


def finite(text: str) -> float:
    return float(text) if abs(float(text)) != float("inf") else none(text)


def whole(text: str) -> int:
    """A number without a point, which may not be too large for one with a point either."""
    finite(text)
    return int(text)


def checked(pairs: list[tuple[str, Any]]) -> dict[str, Any]:
    """An object, the last of equal keys counting; half a pair of surrogates is no text, be it of a key that does not
    count."""
    json.dumps(pairs, ensure_ascii=False).encode()
    return dict(pairs)


def depth(text: str) -> int:
    """How many arrays and objects are within one another."""
    most = now = 0
    for character in TEXT.sub("", text):
        now += (character in "[{") - (character in "]}")
        most = max(most, now)
    return most


def read(data: bytes) -> Any:
    """The value that these bytes are; else ValueError."""
    try:
        text = data.decode()
        found = json.loads(text, parse_constant=none, parse_float=finite, parse_int=whole, object_pairs_hook=checked)
        json.dumps(found, ensure_ascii=False).encode()
    except RecursionError:
        raise ValueError from None
    return found if depth(text) <= DEEPEST else none(text)
