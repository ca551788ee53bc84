"""Exact numbers as text: decimals, rounded once; the point is a point in every locale. Tables in columns."""

import re
from collections.abc import Sequence
from decimal import Context, Decimal
from fractions import Fraction

from rtdvs.errors import WordFault


def decimal(value: Fraction | int | None, places: int) -> str:
    """The number with this many decimal places, half to even; `-` for None.

    >>> decimal(Fraction(2, 3), 4), decimal(Fraction(-1, 8), 2), decimal(3, 1), decimal(None, 4)
    ('0.6667', '-0.12', '3.0', '-')
    """
    if value is None:
        return "-"
    digits = f"{abs(round(value * 10**places)):0{places + 1}}"
    sign = "-" if value < 0 and int(digits) > 0 else ""
    return f"{sign}{digits[:-places]}.{digits[-places:]}" if places else f"{sign}{digits}"


def trimmed(text: str) -> str:
    """A decimal without the zeros at its end.

    >>> trimmed("2.50"), trimmed("15.00"), trimmed("100")
    ('2.5', '15', '100')
    """
    return text.rstrip("0").rstrip(".") if "." in text else text


def significant(number: int, by: int, digits: int) -> str:
    """A quotient of whole numbers, from 0 on, with that many significant digits, in the form of C's `%g`.

    >>> significant(696, 280, 9), significant(10**20, 1, 15), significant(1, 10**5, 9), significant(0, 7, 9)
    ('2.48571429', '1e+20', '1e-05', '0')
    """
    value = Context(prec=digits).divide(Decimal(number), Decimal(by))
    power = value.adjusted()
    if -4 <= power < digits or not number:
        return trimmed(f"{value:f}")
    places = f"{value.scaleb(-power, Context(prec=digits)):f}"
    return f"{trimmed(places)}e{'-' if power < 0 else '+'}{abs(power):02}"


def aligned(rows: Sequence[Sequence[str]], left: int = 1) -> str:
    """Rows in columns: the first `left` to the left, the others to the right. A short row isn't aligned.

    >>> print(aligned([("of", "energy", "idle"), ("cc", "7", "0"), ("none", "denied")]), end="")
    of    energy  idle
    cc         7     0
    none  denied
    """
    whole = [row for row in rows if len(row) == len(rows[0])]
    widths = [max(map(len, column)) for column in zip(*whole, strict=True)]
    widths[:left] = [max(len(row[place]) for row in rows) for place in range(left)]
    lines = (row if len(row) < len(widths) else [*row[:left], *map(str.rjust, row[left:], widths[left:])]
             for row in rows)
    return "".join("  ".join([*map(str.ljust, line[:left], widths), *line[left:]]) + "\n" for line in lines)


def plain(number: Fraction) -> str:
    """A number as a decimal if it ends, otherwise as a fraction.

    >>> plain(Fraction(5, 4)), plain(Fraction(1, 3)), plain(Fraction(7))
    ('1.25', '1/3', '7')
    """
    places = next((places for places in range(31) if 10**places % number.denominator == 0), None)
    return str(number) if places is None else decimal(number, places)


def rounded(number: Fraction | None, digits: int = 6) -> str:
    """A number with that many digits, rounded once; `-` for None.

    >>> rounded(Fraction(2, 3), 4), rounded(Fraction(1234567, 1), 3)
    ('0.6667', '1.23E+6')
    """
    if number is None:
        return "-"
    context = Context(prec=digits)
    text = context.divide(Decimal(number.numerator), Decimal(number.denominator)).normalize(context)
    return f"{text:f}" if -10 < text.adjusted() < min(15, digits) else str(text)


RAISED = str.maketrans("0123456789", "⁰¹²³⁴⁵⁶⁷⁸⁹")


def readable(number: int) -> str:
    """A whole number; one of seven digits or more is rounded to six, with a power of ten.

    >>> readable(999999), readable(364000000000)
    ('999999', '3.64 × 10¹¹')
    """
    if number < 10**6:
        return str(number)
    digits, _, power = significant(number, 1, 6).partition("e+")
    return f"{digits} × 10{power.lstrip('0').translate(RAISED)}"


def short(number: Fraction) -> str:
    """A number with at most two decimals.

    >>> short(Fraction(836, 280)), short(Fraction(15))
    ('2.99', '15')
    """
    return trimmed(decimal(number, 2))


def whole(word: str, least: int = 0, most: int | None = None) -> int:
    """A whole number in decimal digits without sign or leading zero, within the bounds; raises WordFault.

    >>> whole("16", 1)
    16
    >>> whole("016", 1)
    Traceback (most recent call last):
    rtdvs.errors.WordFault: a whole number from 1 on, not 016
    """
    spelled = re.fullmatch("0|[1-9][0-9]{0,99}", word)
    if spelled and least <= int(word) and (most is None or int(word) <= most):
        return int(word)
    bounds = f"from {least} on" if most is None else f"from {least} to {most}"
    raise WordFault(f"a whole number {bounds}, not {word}")
