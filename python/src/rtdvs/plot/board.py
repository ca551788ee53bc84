"""The picture of a board's report: responses under RM, and the power of each pair."""

from collections.abc import Sequence
from pathlib import Path

from rtdvs._numbers import plain, rounded
from rtdvs.board import Asked, Board, Design, PairCost, Units, pair_costs
from rtdvs.plot._labels import power
from rtdvs.plot._style import SMALL, Axes, legend_above, new_figure, patch, rows_below, save, settings, shares, words

RESPONSE, POWER = "#0072b2", {"worst": "#d55e00", "usual": "#e6a23c"}
ROW, WIDE = 30, 700
NO_POWER = "no power: "


def plot_responses(asked: Asked, axes: Axes) -> None:
    """Draws each task's longest response under RM at the highest speed, as a share of its period.

    >>> from fractions import Fraction
    >>> from rtdvs.board import Load
    >>> axes = new_figure(96, 96).add_subplot()
    >>> loads = Load("a", period=Fraction(4), cycles=Fraction(8)), Load("b", Fraction(6), Fraction(10))
    >>> plot_responses(Asked(loads, speed=Fraction(4)), axes)
    >>> [text.get_text() for text in axes.texts]
    ['2 of 4 ms', 'late: 6 ms']
    """
    rows_below(axes, "longest response under RM, as a share of the period", [load.name for load in asked.loads])
    shares(axes)
    for place, load in enumerate(asked.loads):
        time = asked.response(place)
        if time is None:
            words(axes, 0.02, place, f"late: {plain(load.period)} ms", va="center")
            continue
        share = float(time / load.period)
        axes.barh(place, share, height=2 / 3, color=RESPONSE, alpha=0.75, gid=f"response-{load.name}")
        words(axes, share + 0.013, place, f"{rounded(time, 4)} of {rounded(load.period, 4)} ms", va="center")


def plot_power(costs: Sequence[PairCost], board: Board, axes: Axes) -> None:
    """Draws each pair's mean milliwatts, beside them the battery's hours; a pair that is denied has that word.

    >>> axes = new_figure(96, 96).add_subplot()
    >>> plot_power([PairCost("rm", "cc", {})], Board((), ()), axes)
    >>> axes.texts[0].get_text()
    'denied'
    """
    rows_below(axes, "mean milliwatts", [f"{cost.scheduler.upper()} {cost.governor}" for cost in costs])
    most = max((float(run.milliwatts) for cost in costs for run in cost.spent.values()), default=0) or 1
    axes.set_xlim(0, most)
    axes.tick_params(axis="x", labelsize=SMALL)
    cases = [*dict.fromkeys(case for cost in costs for case in cost.spent)]
    for place, cost in enumerate(costs):
        if not cost.spent:
            words(axes, most / 50, place, "denied", va="center")
        for at, (case, run) in enumerate(cost.spent.items()):
            high = 2 / 3 / len(cases)
            middle = place - 1 / 3 + high * (at + 0.5)
            axes.barh(middle, float(run.milliwatts), height=high, color=POWER[case], alpha=0.75,
                      gid=f"{case}-{cost.scheduler}-{cost.governor}")
            words(axes, float(run.milliwatts) + most / 80, middle, power(run, board.battery), va="center")
    if len(cases) > 1:
        legend_above(axes, [patch(f"{case} demands", POWER[case], 0.75) for case in cases])


def save_report(board: Board, made: Design, ticks: int, path: Path, background: str = "none") -> None:
    """Draws a board's report into a file, as SVG, PDF or PNG by its name; raises BadValue, OSError.

    Without measured power only the responses are drawn, in the second part is why.
    """
    reason = Units(board, made).no_power()
    costs = () if reason else pair_costs(board, made, ticks)
    with settings():
        upper, lower = ROW * len(made.tasks), ROW * max(1, len(costs))
        high = upper + lower + 130
        left = 30 + 8 * max(9, *(len(task.name) for task in made.tasks))
        figure = new_figure(WIDE + left, high)
        first, second = (figure.add_axes((left / (WIDE + left), low / high, 560 / (WIDE + left), tall / high))
                         for low, tall in ((lower + 95, upper), (30, lower)))
        plot_responses(Asked.by_files(made), first)
        if reason:
            second.set_axis_off()
            words(second, 0, 0.5, f"{NO_POWER}{reason}", va="center")
        else:
            plot_power(costs, board, second)
        save(figure, path, background)
