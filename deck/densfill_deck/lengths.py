"""Lengths of a deck in database units, shares in parts of a million: converted exactly, or refused."""
import re
from decimal import Decimal
from fractions import Fraction

METRES = {"m": Fraction(1), "mm": Fraction(1, 10**3), "um": Fraction(1, 10**6), "µm": Fraction(1, 10**6), "μm": Fraction(1, 10**6),
          "nm": Fraction(1, 10**9), "pm": Fraction(1, 10**12)}
LENGTH = re.compile(r"\s*([+-]?(?:\d+\.?\d*|\.\d+))\s*([a-zµμ]*)\s*\Z")
SHARE = re.compile(r"\s*([+-]?(?:\d+\.?\d*|\.\d+))\s*%?\s*\Z")


class Unfit(ValueError):
    """A value of a deck that can't be used, with what would be right."""


def metres(value: object) -> Fraction:
    """A length in metres: "0.5 um", "120 nm", or a number of micrometres."""
    if isinstance(value, bool) or not isinstance(value, (int, Decimal, str)):
        raise Unfit(f'{value!r} is no length: write "0.5 um", "120 nm" or a number of micrometres')
    if not isinstance(value, str):
        return Fraction(value) * METRES["um"]
    found = LENGTH.match(value.replace(",", ".") if value.count(",") == 1 and "." not in value else value)
    if found and "," in value:
        raise Unfit(f'"{value}" has a comma: write "{value.replace(",", ".")}"')
    if not found:
        raise Unfit(f'"{value}" is no length: write "0.5 um", "120 nm" or a number of micrometres')
    number, unit = found.groups()
    if (unit or "um") not in METRES:
        raise Unfit(f'"{value}" has the unit "{unit}": write um, nm, mm, pm or m')
    return Fraction(number) * METRES[unit or "um"]


def in_units(value: object, unit: Fraction) -> int:
    """A length as a whole number of database units of so many metres."""
    count = metres(value) / unit
    if count.denominator != 1:
        raise Unfit(f"{value} is {float(count):.6g} database units of {told(unit)}: write a whole number of them")
    return int(count)


def in_millionths(value: object) -> int:
    """A share of a window in parts of a million: "25 %", or a number of percent."""
    if isinstance(value, bool) or not isinstance(value, (int, Decimal, str)):
        raise Unfit(f'{value!r} is no share: write "25 %" or a number of percent')
    found = SHARE.match(value) if isinstance(value, str) else None
    if isinstance(value, str) and not found:
        raise Unfit(f'"{value}" is no share: write "25 %" or a number of percent')
    share = Fraction(found.group(1) if found else value) * 10**4
    if share.denominator != 1 or not 0 <= share <= 10**6:
        raise Unfit(f"{value} is no share: write 0 % to 100 %, with up to four decimals")
    return int(share)


def share_of(value: object) -> Decimal | None:
    """The number of percent of a share, or nothing where it is none."""
    found = SHARE.match(value) if isinstance(value, str) else None
    if found:
        return Decimal(found.group(1))
    return Decimal(value) if isinstance(value, (int, Decimal)) and not isinstance(value, bool) else None


def told(unit: Fraction) -> str:
    """A length for people: 1 nm, 0.5 nm, 1 um."""
    for name in ("um", "nm", "pm"):
        if unit >= METRES[name]:
            return f"{float(unit / METRES[name]):g} {name}"
    return f"{float(unit):g} m"
