"""Pictures of comparisons."""

from collections.abc import Mapping, Sequence
from fractions import Fraction
from pathlib import Path

from rtdvs._numbers import decimal, plain
from rtdvs.board import Units
from rtdvs.plot._labels import power
from rtdvs.plot._style import POINT, Axes, legend_above, new_figure, patch, rows_below, save, settings, shares, words
from rtdvs.studies import Row

ENERGY, BOUND, TIME = "#d55e00", "#009e73", "#0072b2"


def plot_compare(rows: Sequence[Row], energy: Axes, time: Axes, units: Units | None = None) -> None:
    """Draws a comparison into two axes: energies as shares of EDF with `none`, and the time at each speed.

    A mark is at the bound for the row's units. A pair that is denied has its line in place of a bar. In a board's units
    a bar has its mean milliwatts beside it, and the battery's hours.

    >>> energy, time = new_figure(96, 96).subplots(2)
    >>> plot_compare([Row("rm", "cc", None, "denied rm y 7 6")], energy, time)
    >>> energy.texts[0].get_text()
    'denied rm y 7 6'
    """
    for axes, title in ((energy, "energy, as a share of EDF none; the mark is the bound"),
                        (time, "time at speed" if units is None else "time at MHz")):
        rows_below(axes, title, [f"{row.scheduler.upper()} {row.governor}" for row in rows])
        shares(axes)
    time.set_yticks([])
    speeds = sorted({speed for row in rows if row.result for speed in row.result.residency})
    shades = {speed: 0.7 if len(speeds) == 1 else 0.3 + 0.6 * place / (len(speeds) - 1)
              for place, speed in enumerate(speeds)}
    for place, row in enumerate(rows):
        _draw_energy(energy, place, row, units)
        _draw_times(time, place, row, shades)
    names = {speed: str(speed) if units is None else plain(units.megahertz(speed)) for speed in shades}
    legend_above(time, [patch(names[speed], TIME, shade) for speed, shade in shades.items()])


def save_compare(rows: Sequence[Row], path: Path, background: str = "none", units: Units | None = None) -> None:
    """Draws a comparison into a file, as SVG, PDF or PNG by its name; raises BadValue, OSError.

    >>> save_compare([Row("rm", "cc", None, "denied rm y 7 6")], Path("a.gif"))
    Traceback (most recent call last):
    rtdvs.errors.BadValue: a picture is a file .svg, .pdf or .png, and not a.gif
    """
    with settings():
        high = 24 * len(rows) + 70
        second = 480 if units is None else 540  # the labels of the bars have more room
        wide = second + 330
        figure = new_figure(wide, high)
        low, tall = 30 / high, 24 * len(rows) / high
        energy, time = (figure.add_axes((left / wide, low, 300 / wide, tall)) for left in (90, second))
        plot_compare(rows, energy, time, units)
        save(figure, path, background)


def _label(row: Row, units: Units | None) -> str:
    """What is beside the bar of a pair."""
    assert row.result is not None and row.result.share is not None
    if units is None or units.no_power():
        return decimal(row.result.share, 3)
    return power(units.spent_at(row.result.ran), units.board.battery)


def _draw_energy(axes: Axes, place: int, row: Row, units: Units | None) -> None:
    if row.result is None or row.result.share is None:
        words(axes, 0.02, place, row.refusal or "no share", va="center")
        return
    share, pair = row.result.share, f"{row.scheduler}-{row.governor}"
    axes.barh(place, float(share), height=2 / 3, color=ENERGY, alpha=0.75, gid=f"energy-{pair}")
    words(axes, float(share) + 0.013, place, _label(row, units), va="center")
    if row.result.above_bound is not None:
        axes.vlines(float(share / (1 + row.result.above_bound)), place - 0.42, place + 0.42, color=BOUND,
                    linewidth=3 * POINT, zorder=3, gid=f"bound-{pair}")


def _draw_times(axes: Axes, place: int, row: Row, shades: Mapping[int, float]) -> None:
    begin = Fraction(0)
    for speed, shade in shades.items():
        time = row.result.residency.get(speed, Fraction(0)) if row.result else Fraction(0)
        if time:
            axes.barh(place, float(time), left=float(begin), height=2 / 3, color=TIME, alpha=shade, linewidth=0)
        begin += time
