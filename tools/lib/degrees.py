"""Latitudes and longitudes as people write them."""
from __future__ import annotations

import re

MOST_CHARACTERS = 40
# 48°51'24.5"N, 48 51 24 N, 48:51:24, N 48 51: degrees, minutes and seconds, and a letter at one end
SIXTIETHS = re.compile(
    r"""\s*([NSEWnsew])?\s*([-+]?\d+(?:\.\d+)?)\s*[°d:\s]?\s*(?:(\d+(?:\.\d+)?)\s*['′m:\s]?\s*)?(?:(\d+(?:\.\d+)?)\s*(?:"|″|''|s)?)?\s*([NSEWnsew])?\s*""")


def degrees(text: str, most: int, what: str) -> float:
    """The degrees of a latitude or longitude; ValueError says why a text is none."""
    try:
        number = float(text)
    except ValueError:
        number = sixtieths(text, what)
    except TypeError:
        raise ValueError(f"the {what} is no number") from None
    if -most <= number <= most:
        return number
    other = "; is it the longitude?" if what == "latitude" and abs(number) <= 180 else ""
    raise ValueError(f"the {what} {text.strip()[:MOST_CHARACTERS]} isn't from -{most} to {most}{other}")


def sixtieths(text: str, what: str) -> float:
    if not text.strip():
        raise ValueError(f"the {what} is missing")
    found = SIXTIETHS.fullmatch(text) if len(text) <= MOST_CHARACTERS else None
    if found is None or found[1] and found[5]:
        shown = text if len(text) <= MOST_CHARACTERS else text[:MOST_CHARACTERS] + ".."
        raise ValueError(f"'{shown}' is no {what} in degrees" + ("; a decimal comma is a point here" if "," in text else ""))
    letter = (found[1] or found[5] or "").upper()
    if letter and letter not in ("NS" if what == "latitude" else "EW"):
        raise ValueError(f"'{text}' is no {what}: it has the letter {letter}")
    whole = abs(float(found[2])) + float(found[3] or 0) / 60 + float(found[4] or 0) / 3600
    return -whole if found[2].startswith("-") or letter in ("S", "W") and letter else whole
