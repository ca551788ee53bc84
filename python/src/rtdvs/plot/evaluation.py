"""Pictures of the evaluation's tables."""

import csv
import textwrap
from collections.abc import Iterable, Mapping, Sequence
from dataclasses import dataclass
from fractions import Fraction
from pathlib import Path
from typing import Any

from rtdvs._numbers import decimal
from rtdvs.errors import BadValue
from rtdvs.plot import _style, comparison
from rtdvs.plot._style import INK, POINT, SMALL, TEXT, bare, beside, legend, new_figure, pixels, save, settings, sign


@dataclass(frozen=True, slots=True)
class Mean:
    """A point of a figure: the number of sets; their mean energy and the middle 80 %, () without sets.

    >>> Mean("5 tasks", "rm cc", Fraction(1), sets=0, energies=()).sets
    0
    """

    panel: str
    curve: str
    utilisation: Fraction
    sets: int
    energies: tuple[Fraction, ...]


def parse_means(text: str) -> tuple[Mean, ...]:
    r"""The points of a table of the evaluation, with tabs between its columns; raises BadValue.

    >>> head = "panel\tcurve\tutilisation\tsets\tmean\tlow\thigh\n"
    >>> parse_means(head + "5 tasks\tbound\t0.1\t100\t0.5\t0.4\t0.6\n")[0].sets
    100
    """
    rows = list(csv.reader(text.splitlines(), delimiter="\t"))
    if not rows or rows[0] != ["panel", "curve", "utilisation", "sets", "mean", "low", "high"]:
        raise BadValue("table: wrong header")
    try:
        return tuple(Mean(panel, curve, Fraction(utilisation), int(sets),
                          tuple(map(Fraction, filter(None, energies))))
                     for panel, curve, utilisation, sets, *energies in rows[1:])
    except (ValueError, ZeroDivisionError):
        raise BadValue("table: a row isn't a point") from None


LETTER, WIDE_LETTER = 5.8, 7    # room for a letter of small text, and of a panel's title
SIGN = 50                       # of a legend, without its text
HEADING_PARTS = ("energy, as a share of EDF with none,", "over worst-case utilisation;",
                 "numbers at RM: sets that it admits")
HEADING = " ".join(HEADING_PARTS)

# The curves: colour, marker, whether dashed, and pixels to the right, so that bars don't hide each other.
Look = tuple[str, str, bool, int]
CURVES: dict[str, Look] = {
    "bound": (INK, "", True, 0),
    "edf static": (comparison.TIME, "o", False, -2),
    "rm static": (comparison.TIME, "o", True, 4),
    "edf cc": (comparison.ENERGY, "s", False, 0),
    "rm cc": (comparison.ENERGY, "s", True, 6),
    "edf la": (comparison.BOUND, "D", False, 2),
}
WHOLE = ("edf none", "rm none")  # the line at 1
MORE = (("#c04aa8", "^"), ("#a08a00", "v"), ("#2a9fb5", "P"), ("#9c7350", "X"), ("#6f7fd8", "*"))


def looks(means: Iterable[Mean]) -> dict[str, Look]:
    """How each curve of a table is drawn: those of the pairs, and any others that it has.

    >>> [*looks([Mean("5 tasks", "edf mine", Fraction(1), sets=0, energies=())])][-1]
    'edf mine'
    """
    others = [curve for curve in dict.fromkeys(mean.curve for mean in means) if curve not in {*CURVES, *WHOLE}]
    own = {curve: (*MORE[place % len(MORE)], place >= len(MORE), 8 + 2 * place) for place, curve in enumerate(others)}
    return CURVES | own


def plot_means(means: Sequence[Mean], axes: _style.Axes, curves: Mapping[str, Look] | None = None) -> None:
    """Draws a panel of the evaluation: mean energies over utilisation, the middle 80 % as bars, the sets
    that RM admits.

    A curve has no point if fewer than a tenth of the sets are admitted; a dash is where there is no set. `curves` are those of the whole figure,
    by `looks`, so that each has one colour in all panels.

    >>> axes = new_figure(96, 96).add_subplot()
    >>> plot_means([Mean("5 tasks", "bound", Fraction(1, 10), 100, 3 * (Fraction(1, 2),))], axes)
    >>> axes.get_title()
    '5 tasks'
    """
    bare(axes, "y")
    axes.set(xlim=(0, 1.03), ylim=(0, 1))
    admitted, sets = ({mean.utilisation: mean.sets for mean in means if mean.curve == curve}
                      for curve in ("rm none", "edf none"))
    tenths = [Fraction(place, 10) for place in range(1, 11)]
    numbers = [admitted.get(tenth, 0) if sets.get(tenth) else "–" for tenth in tenths]
    axes.set_xticks([float(tenth) for tenth in tenths],
                    [f"{decimal(tenth, 1)}\n{number}" for tenth, number in zip(tenths, numbers)], fontsize=SMALL)
    axes.set_yticks([0, 0.2, 0.4, 0.6, 0.8, 1], ["0.0", "0.2", "0.4", "0.6", "0.8", "1.0"], fontsize=SMALL)
    beside(axes, (0, 0), (-6, -24), "RM", ha="right")
    title = means[0].panel if means else ""
    lines = textwrap.wrap(title, int(270 / LETTER)) if len(title) > 270 / WIDE_LETTER else [title]
    axes.set_title("\n".join(lines), fontsize=SMALL if lines[1:] else TEXT, color=INK)
    axes.hlines(1, 0.1, 1, color=INK, linewidth=1.5 * POINT, clip_on=False)
    for curve, look in (curves or looks(means)).items():
        _draw_curve(axes, curve, look, [mean for mean in means if mean.curve == curve and mean.energies
                                        and 10 * mean.sets >= sets.get(mean.utilisation, 0)])


def _draw_curve(axes: _style.Axes, curve: str, look: Look, means: Sequence[Mean]) -> None:
    colour, _, _, shift = look
    width = pixels(axes) / 1.03
    places = [float(mean.utilisation) + shift / width for mean in means]
    bars = [(place, *map(float, mean.energies[1:])) for place, mean in zip(places, means)
            if curve != "bound" and mean.energies[2] - mean.energies[1] >= Fraction(1, 230)]
    middles, lows, highs = zip(*bars) if bars else ([], [], [])
    axes.vlines(middles, lows, highs, color=colour, alpha=0.75, linewidth=1.2 * POINT, clip_on=False)
    axes.plot(places, [float(mean.energies[0]) for mean in means], color=colour, clip_on=False,
              gid=curve.replace(" ", "-"), **_curve_style(curve, look))


def _curve_style(curve: str, look: Look) -> dict[str, Any]:
    colour, marker, is_dashed, _ = look
    dashes = (0, (1, 1.5)) if curve == "bound" else (0, (3, 2)) if is_dashed else "-"
    return {"linestyle": dashes, "linewidth": (2 if curve == "bound" else 1.6) * POINT, "marker": marker,
            "markersize": 6 * POINT, "markerfacecolor": "none" if is_dashed else colour,
            "markeredgecolor": colour, "markeredgewidth": 1.6 * POINT}


def save_means(means: Sequence[Mean], path: Path, columns: int = 3, background: str = "none") -> None:
    """Draws a figure of the evaluation into a file, a panel for each of its panels.

    The file is SVG, PDF or PNG by its name; raises BadValue, OSError.

    >>> save_means([Mean("5 tasks", "rm cc", Fraction(1), 0, ())], Path("a.gif"))
    Traceback (most recent call last):
    rtdvs.errors.BadValue: a picture is a file .svg, .pdf or .png, and not a.gif
    """
    with settings():
        panels = list(dict.fromkeys(mean.panel for mean in means))
        columns = min(columns, max(1, len(panels)))
        wide, rows = 44 + columns * 314, -(-len(panels) // columns)
        curves = looks(means)
        signs = [sign("none", INK, linewidth=1.5 * POINT)]
        signs += [sign(curve.replace("edf", "EDF").replace("rm", "RM"), look[0], **_curve_style(curve, look))
                  for curve, look in curves.items()]
        heading, above, below, signs_in_row = _around(columns, wide, [each.get_label() for each in signs])
        high = above + rows * 290 + below
        figure = new_figure(wide, high)
        for place, panel in enumerate(panels):
            left, top = 44 + place % columns * 314, above + place // columns * 290
            axes = figure.add_axes((left / wide, 1 - (top + 230) / high, 270 / wide, 230 / high))
            plot_means([mean for mean in means if mean.panel == panel], axes, curves)
        figure.text(14 / wide, 1 - 6 / high, heading, fontsize=SMALL, color=INK, va="top")
        legend(figure, signs, signs_in_row, loc="lower left", handlelength=3, borderaxespad=0.3)
        save(figure, path, background)


def _around(columns: int, wide: float, labels: Sequence[str]) -> tuple[str, int, int, int]:
    """The heading, the pixels above the panels and below them, and the signs in a row of the legend."""
    heading = "\n".join(textwrap.wrap(HEADING, int((wide - 28) / LETTER))) if columns > 1 else "\n".join(HEADING_PARTS)
    longest = max(map(len, labels))
    in_row = min({1: 2, 2: 4}.get(columns, 7), max(1, int(wide / (SIGN + LETTER * longest))))
    rows = -(-len(labels) // in_row)
    return heading, 40 + 12 * (heading.count("\n") + 1), (19 if columns == 1 else 20) * rows, in_row
