from decimal import Decimal
from fractions import Fraction

import pytest
from hypothesis import given
from hypothesis import strategies as st

from rtdvs._numbers import decimal, significant


@pytest.mark.parametrize(("value", "places", "shown"), [
    (Fraction(0), 4, "0.0000"), (Fraction(1), 4, "1.0000"), (Fraction(5, 7), 6, "0.714286"),
    (12345, 0, "12345"),
    (Fraction(1, 20000), 4, "0.0000"), (Fraction(3, 20000), 4, "0.0002"), (Fraction(-1, 20000), 4, "0.0000"),
    (Fraction(-3, 2), 1, "-1.5"), (Fraction(999999, 100000), 4, "10.0000"), (None, 4, "-"),
], ids=str)
def test_by_hand(value: Fraction | int | None, places: int, shown: str) -> None:
    assert decimal(value, places) == shown


@given(st.integers(0, 10**26), st.integers(0, 25), st.integers(0, 9))
def test_as_the_decimal_module_rounds(digits: int, shift: int, places: int) -> None:
    assert decimal(Fraction(digits, 10**shift), places) == f"{Decimal(digits).scaleb(-shift):.{places}f}"


@pytest.mark.parametrize(("number", "by", "digits", "text"), [
    (2, 3, 9, "0.666666667"), (10**9, 1, 9, "1e+09"), (999999999, 1, 9, "999999999"),
    (10**10 - 1, 10, 9, "1e+09"),
    (1, 8192, 9, "0.000122070312"), (1, 10**5, 9, "1e-05"), (3 * 2**128, 1, 15, "1.02084710076282e+39"),
    (0, 5, 9, "0"),
])
def test_numbers_in_the_form_of_c(number: int, by: int, digits: int, text: str) -> None:
    assert significant(number, by, digits) == text


@given(st.integers(0, 2**128), st.integers(1, 2**128), st.sampled_from([9, 15]))
def test_any_number_is_rounded_once(number: int, by: int, digits: int) -> None:
    found, wanted = Fraction(significant(number, by, digits)), Fraction(number, by)
    assert abs(found - wanted) * 2 * 10 ** (digits - 1) <= wanted
    assert len(significant(number, by, digits).split("e")[0].replace(".", "").lstrip("0")) <= digits
