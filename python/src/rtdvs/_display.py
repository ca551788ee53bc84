"""Values as tables and pictures in a notebook, and as frames of pandas, which is imported when one is made."""

from collections.abc import Iterable, Mapping, Sequence
from fractions import Fraction
from html import escape
from typing import TYPE_CHECKING, Any, ClassVar, TypeAlias

from rtdvs._numbers import decimal

if TYPE_CHECKING:
    import pandas

Cell = str | int | Fraction | None
Frame: TypeAlias = "pandas.DataFrame"
MOST_ROWS = 100


class Shown:
    """What a notebook shows as a table, and pandas has as a frame.

    >>> class Primes(Shown):
    ...     def _columns(self): return {"prime": "int64"}
    ...     def _rows(self): return [(2,), (3,)]
    >>> Primes()._repr_html_().count("<tr>"), int(Primes().frame()["prime"].sum())
    (3, 5)
    """

    __slots__ = ()

    _kinds: ClassVar[Mapping[str, str]] = {}

    def _columns(self) -> Mapping[str, str]:
        """The names of the columns, each with the kind that pandas has of it."""
        return self._kinds

    def _rows(self) -> Iterable[Sequence[Cell]]:
        raise NotImplementedError

    def _caption(self) -> str:
        """What is said above the table."""
        return ""

    def frame(self) -> Frame:
        """The table as a pandas frame; ImportError without pandas.

        Shares and times are floats. Energies are Python's integers, so their sums are exact.
        """
        return frame_of(self._columns(), self._rows())

    def _repr_html_(self) -> str:
        return html_of(self._columns(), self._rows(), self._caption())


def frame_of(columns: Mapping[str, str], rows: Iterable[Sequence[Cell]]) -> Frame:
    """A pandas frame of columns, each with its kind; ImportError without pandas.

    >>> frame_of({"share": "float64"}, [(Fraction(1, 4),), (None,)])["share"].tolist()
    [0.25, nan]
    """
    import pandas

    return pandas.DataFrame([*rows], columns=[*columns], dtype=object).astype(dict(columns))


def html_of(columns: Iterable[str], rows: Iterable[Sequence[Cell]], caption: str = "") -> str:
    """A table of HTML, in which a number that isn't whole has four decimal places, and a dash is no value.

    It has a hundred rows, and says how many more there are.

    >>> html_of(["name", "share"], [("<a>", Fraction(1, 3))])
    '<table><tr><th scope="col">name</th><th scope="col">share</th></tr><tr><td>&lt;a&gt;</td><td>0.3333</td></tr></table>'
    """
    every = [*rows]
    heading = "".join(f'<th scope="col">{escape(name)}</th>' for name in columns)
    lines = ("".join(f"<td>{_text(cell)}</td>" for cell in row) for row in every[:MOST_ROWS])
    more = f"<p>{len(every) - MOST_ROWS} more</p>" if len(every) > MOST_ROWS else ""
    above = caption and f"<caption>{escape(caption)}</caption>"
    return f"<table>{above}<tr>{heading}</tr>{''.join(f'<tr>{line}</tr>' for line in lines)}</table>{more}"


def _text(cell: Cell) -> str:
    return escape(cell) if isinstance(cell, str) else decimal(cell, 0 if isinstance(cell, int) else 4)


def picture(trace: Any) -> str | None:
    """A trace as SVG, by rtdvs.plot; None without matplotlib, or where a trace has no job to draw."""
    from rtdvs.plot import svg_text

    try:
        return svg_text(trace)
    except (ImportError, ValueError):
        return None
