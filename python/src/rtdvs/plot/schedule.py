"""Pictures of traces, by matplotlib.

Each is drawn into the caller's axes or into a file: SVG, PDF or PNG, by its name. A picture has no
background, and colours that can be read on white and on dark.
"""

import math
from collections.abc import Iterable, Sequence
from dataclasses import dataclass, field, replace
from fractions import Fraction
from functools import cached_property, partial
from itertools import chain, count
from pathlib import Path
from typing import Any

from rtdvs.board import Units
from rtdvs.errors import BadValue
from rtdvs.plot import _labels, _style, _thinning
from rtdvs.plot._style import INK, POINT, SMALL, TEXT, save, words
from rtdvs.trace import Decision, Job, Trace, is_late

# Lengths are in pixels, 96 to the inch.
ROW = 58            # a task's row
BAR = 36            # a run at full height
SPEED = 72          # the speed row up to full height
DUE = 28            # a deadline's arrow
LINE = 16           # a line of the energies
TICKS = 5           # the ticks' lines go on below the speed row
DEMANDS = 28        # the row of the demands' values
CAP = 1.5           # a demand is drawn up to this share of the full height
LEAST = 0.6         # the narrowest bar
NARROW = 3          # narrower bars are drawn over the arrows, others below them
GAP = 0.5           # narrow bars with smaller gaps are drawn as one
NEAR = 2            # marks of one kind that are nearer are drawn once
MOST_MARKS = 12_000  # of all rows; with more, marks that are farther from each other are drawn once too
LETTER = 6.4        # room for a letter of small text
NAME_LETTER = 7.8   # room for a letter of a name
DEMAND = "#c04aa8"
DEADLINE = "#e0434b"
MISS = "#b00020"
RIM = "#555555"
COLOURS = ("#3f83c8", "#d07a1f", "#2f9e74", "#9a6dd0", "#a08a00", "#2a9fb5", "#9c7350", "#6f7fd8")
DOTS = (0, (1, 1.6))
TIP_ABOVE, TIP_BELOW = 6, 7     # matplotlib's carets with their tip at the place


@dataclass(frozen=True, slots=True)
class _Arrow:
    """The arrows of one kind: their colour, their height, and the height and the mark of their tip."""

    kind: str
    colour: str
    high: int
    tip: int
    marker: int


RELEASES = _Arrow("release", INK, 48, 48, TIP_ABOVE)
DEADLINES = _Arrow("deadline", DEADLINE, DUE, 0, TIP_BELOW)


@dataclass(frozen=True, slots=True)
class View:
    """What of a trace is drawn.

    The ticks from `first` to `last` (the end of the run by default); `top`, the speed of full height (by
    default the fastest of the trace, and pictures to be compared need the same one); `charge`, the machine's,
    which each worst case has twice; `units`, those of a board, for milliseconds and joules.

    >>> View(first=10, last=20).charge
    0
    """

    first: int = 0
    last: int | None = None
    top: int | None = None
    charge: int = 0
    units: Units | None = None


def settled(trace: Trace, view: View) -> View:
    """The view with its defaults filled in; raises BadValue if it doesn't fit the trace.

    >>> from rtdvs.trace import SAMPLE
    >>> settled(Trace.parse(SAMPLE), View())
    View(first=0, last=2, top=3, charge=0, units=None)
    """
    fastest = max((decision.speed for decision in trace.decisions), default=0)
    last = trace.ticks if view.last is None else view.last
    top, labels = fastest if view.top is None else view.top, _labels.labels_of(view.units)
    for is_wrong, reason in (
            (not fastest, "trace: no decision, so nothing can be drawn"),
            (last > trace.ticks, f"--to has to be at most {labels.time(trace.ticks)}, the {labels.time_unit} of the run"),
            (view.first >= last, f"--from has to be below {labels.time(last)}"),
            (top < fastest, f"--top has to be at least {labels.speed(fastest)}, the fastest speed")):
        if is_wrong:
            raise BadValue(reason)
    return replace(view, last=last, top=top)


# The picture of a trace


@dataclass(frozen=True)
class _Frame:
    """A trace in its axes: y in pixels above the speed row's floor, x in ticks, `scale` pixels each."""

    trace: Trace
    axes: _style.Axes
    view: View
    first: int
    last: int
    top: int
    names: tuple[str, ...]
    labels: _labels.Labels
    left_out: set[str] = field(default_factory=set)  # what the legend has to say of what isn't drawn

    def thinned(self, places: Iterable[float]) -> list[float]:
        """The places in view, without those that are too near; the legend says if there are any."""
        shown = list(filter(self.is_shown, places))
        kept = _thinning.thin(shown, self.near / self.scale)
        if len(kept) < len(shown):
            self.left_out.add(self.near_marks)
        return kept

    @cached_property
    def near(self) -> int:
        """The pixels between two marks of a kind in a row, at least NEAR, for at most MOST_MARKS in the picture."""
        jobs = [*self.jobs.values()]
        places: Iterable[Iterable[float]] = chain(
            ((job.release for job in row) for row in jobs),
            ((job.deadline for job in row if job.deadline is not None) for row in jobs),
            ((done.at for done in row) for row in self.complete.values()))
        rows = [list(filter(self.is_shown, of_kind)) for of_kind in places]
        return next(near for near in count(NEAR, NEAR)
                    if sum(len(_thinning.thin(row, near / self.scale)) for row in rows) <= MOST_MARKS)

    def coarse(self, pixels: float) -> float:
        """Pixels, as many times more as marks that are drawn apart are farther from each other than usual."""
        return pixels * (self.near // NEAR)

    @property
    def near_marks(self) -> str:
        return f"near marks (less than {self.near} pixels) once"

    @property
    def joined(self) -> str:
        return f"runs below {self.coarse(NARROW)} pixels joined, as high as the highest"

    @cached_property
    def jobs(self) -> dict[str, list[Job]]:
        jobs = self.trace.jobs()
        return {name: [job for job in jobs if job.task == name] for name in self.names}

    @cached_property
    def complete(self) -> dict[str, list[_thinning.Completion]]:
        return _thinning.completions(self.trace, self.jobs)

    @cached_property
    def width(self) -> float:
        """The pixels of all ticks in view."""
        return _style.pixels(self.axes)

    @cached_property
    def scale(self) -> float:
        return self.width / (self.last - self.first)

    @cached_property
    def spans(self) -> list[tuple[float, float, Decision]]:
        """The decisions with the ticks in view for which they hold."""
        held = ((max(each.tick, self.first), min(end, self.last), each) for each, end in self.trace.spans)
        return [span for span in held if span[0] < span[1]]

    @cached_property
    def speed_row(self) -> float:
        """The height of the speed row, with the demands' lines."""
        peak = max(each.num / each.den for each, _ in self.trace.spans)
        return self.speed_height(max(self.top, peak))

    def floor(self, row: int) -> float:
        return self.speed_row + DEMANDS + (len(self.names) - 1 - row) * ROW

    def bar_height(self, speed: float) -> float:
        return BAR * speed / self.top

    def speed_height(self, speed: float) -> float:
        return SPEED * min(speed / self.top, CAP)

    def is_shown(self, tick: float) -> bool:
        return self.first <= tick <= self.last

    def room(self, begin: float, end: float) -> float:
        """The pixels between two ticks, of which only those in the view count."""
        return (min(end, self.last) - max(begin, self.first)) * self.scale


def _frame(trace: Trace, axes: Any, view: View) -> _Frame:
    view = settled(trace, view)
    assert view.last is not None and view.top is not None
    labels = _labels.labels_of(view.units)
    return _Frame(trace, axes, view, view.first, view.last, view.top, trace.names, labels)


def plot_trace(trace: Trace, axes: _style.Axes, view: View = View()) -> None:
    """Draws a trace into axes, which should be `trace_height` pixels high. Raises BadValue if the view
    doesn't fit.

    A task's row has an arrow up at each release, an arrow down at each deadline, a bar for each run, as high
    as its speed, and a circle at each completion, with the units used and the worst case. The speed row has
    the speed as a line, idle time in grey, the demand as a dotted line, and a dot at each decision.

    >>> from matplotlib.figure import Figure
    >>> from rtdvs.trace import SAMPLE
    >>> axes = Figure().add_subplot()
    >>> plot_trace(Trace.parse(SAMPLE), axes)
    >>> axes.get_title(loc="left").splitlines()[0]
    'edf, mine: 2 ticks'
    """
    frame, runs = _frame(trace, axes, view), _thinning.bars(trace)
    for draw in (_draw_axes, _draw_head, _draw_rows):
        draw(frame)
    for row, name in enumerate(frame.names):
        _draw_bars(frame, runs.get(name, []), frame.floor(row), BAR / frame.top, f"run-{name}",
                   facecolor=COLOURS[row % len(COLOURS)])
    has_idle = _draw_bars(frame, runs.get("", []), 0, SPEED / frame.top, "idle", facecolor=INK, alpha=0.3)
    for draw in (_draw_scale, _draw_speeds, _draw_decisions):
        draw(frame)
    _draw_legend(frame, has_idle)


def trace_height(trace: Trace, view: View = View()) -> float:
    """The pixels that axes for a trace should be high.

    >>> from rtdvs.trace import SAMPLE
    >>> trace_height(Trace.parse(SAMPLE))
    158.0
    """
    return _frame(trace, None, view).floor(0) + ROW


def save_trace(trace: Trace, path: Path, view: View = View(), width: int = 1000, background: str = "none") -> None:
    """Draws a trace into a file, `width` pixels wide; raises BadValue, OSError.

    >>> from rtdvs.trace import SAMPLE
    >>> save_trace(Trace.parse(SAMPLE), Path("a.svg"), width=200)
    Traceback (most recent call last):
    rtdvs.errors.BadValue: --width has to be at least 347
    """
    with _style.settings():
        save(_figure(trace, view, width), path, background)


def svg_text(trace: Trace, view: View = View(), width: int = 1000, background: str = "none") -> str:
    """A trace as SVG, `width` pixels wide; raises BadValue.

    >>> from rtdvs.trace import SAMPLE
    >>> svg_text(Trace.parse(SAMPLE)).count("</svg>")
    1
    """
    with _style.settings():
        text = _style.drawn(_figure(trace, view, width), "svg", background).decode()
    return text[text.index("<svg"):]


def _figure(trace: Trace, view: View, width: int) -> _style.Figure:
    names = trace.names
    facts = [_facts(trace, name, view) for name in names]
    left = max([100, *(18 + NAME_LETTER * len(name) for name in names), *(18 + LETTER * len(fact) for fact in facts)])
    if width < left + 220:
        raise BadValue(f"--width has to be at least {math.ceil(left + 220)}")
    high = trace_height(trace, view) + TICKS
    above = 12 + 18 * len(_title_lines(trace, view, width - left - 20)) + LINE * len(
        _head_lines(trace, view, width - left - 20))
    figure = _style.new_figure(width, above + high + 26)
    axes = figure.add_axes((left / width, 0, 1 - (left + 20) / width, 1))
    plot_trace(trace, axes, view)
    signs: Any = axes.get_legend()
    below = 26 + 15 * -(-len(signs.get_texts()) // int(signs._ncols))
    tall = above + high + below
    figure.set_size_inches(width * _style.PIXEL, tall * _style.PIXEL)
    axes.set_position((left / width, below / tall, 1 - (left + 20) / width, high / tall))
    return figure


def _draw_axes(frame: _Frame) -> None:
    axes, first, last = frame.axes, frame.first, frame.last
    _style.bare(axes, "x")
    axes.set(xlim=(first, last), ylim=(-TICKS, frame.floor(0) + ROW), yticks=[])
    marks = [*frame.labels.marks(first, last, frame.width)]
    axes.set_xticks([*map(float, marks)], [*map(frame.labels.time, marks)], fontsize=SMALL)
    axes.grid(axis="x", color=INK, alpha=0.4, linewidth=0.5 * POINT)


def _draw_head(frame: _Frame) -> None:
    """The title, what is said of missed deadlines, and the energies."""
    axes, lines = frame.axes, _head_lines(frame.trace, frame.view, frame.width)
    axes.set_title("\n".join(_title_lines(frame.trace, frame.view, frame.width)), loc="left", fontsize=_style.TITLE,
                   color=INK, pad=(8 + LINE * len(lines)) * POINT)
    _style.beside(axes, (0, 1), (0, 5), "\n".join(lines), xycoords="axes fraction", va="bottom", fontsize=TEXT)


def _title_lines(trace: Trace, view: View, width: float) -> list[str]:
    last, labels = trace.ticks if view.last is None else view.last, _labels.labels_of(view.units)
    return _wrapped(_labels.title_parts(trace, labels.span(view.first, last, trace.ticks)), width / 9)


def _head_lines(trace: Trace, view: View, width: float) -> list[str]:
    parts = _labels.late_parts(trace), _labels.labels_of(view.units).energy(trace)
    return [line for each in parts for line in _wrapped(each, width / 6.9)]


def _wrapped(parts: Sequence[str], letters: float) -> list[str]:
    """Parts in lines of about that many letters; a part is never cut."""
    lines = [*parts[:1]]
    for part in parts[1:]:
        if len(lines[-1]) + 1 + len(part) > letters:
            lines.append(part)
        else:
            lines[-1] += f" {part}"
    return lines


def _facts(trace: Trace, name: str, view: View) -> str:
    task = next((task for task in trace.tasks if task.name == name), None)
    return "" if task is None else _labels.labels_of(view.units).facts(task, view.charge)


def _beside(frame: _Frame, y: float, text: str, margin: float = 8, **style: Any) -> None:
    """A text on the left of the axes."""
    _style.beside(frame.axes, (0, y), (-margin, 0), text, xycoords=("axes fraction", "data"), ha="right", **style)


def _draw_rows(frame: _Frame) -> None:
    """The rows of the tasks, but for their bars."""
    trace, charge, work = frame.trace, frame.view.charge, frame.labels.work
    jobs, complete = frame.jobs, frame.complete
    worst = {task.name: f"/{work(task.worst + 2 * charge)}" for task in trace.tasks}
    for row, name in enumerate(frame.names):
        floor, facts = frame.floor(row), _facts(trace, name, frame.view)
        frame.axes.hlines(floor, frame.first, frame.last, color=INK, linewidth=POINT)
        _beside(frame, floor + (24 if facts else 16), name, fontsize=TEXT, family="monospace")
        _beside(frame, floor + 10, facts)
        _draw_arrows(frame, row, RELEASES, [job.release for job in jobs[name]])
        _draw_arrows(frame, row, DEADLINES, [job.deadline for job in jobs[name] if job.deadline is not None])
        _draw_misses(frame, row, [job for job in jobs[name] if is_late(job, trace.ticks)])
        places = set(frame.thinned(done.at for done in complete[name]))
        kept = [done for done in complete[name] if done.at in places]
        _draw_completions(frame, row, kept)
        for done in kept:
            _label_completion(frame, floor, done, f"{work(done.used)}{worst.get(name, '')}")


def _draw_arrows(frame: _Frame, row: int, arrow: _Arrow, ticks: Sequence[int]) -> None:
    """Draws a task's releases, or its deadlines."""
    floor, kept = frame.floor(row), frame.thinned(ticks)
    style: dict[str, Any] = {"color": arrow.colour, "zorder": 2.2, "clip_on": False}
    frame.axes.vlines(kept, floor, floor + arrow.high, linewidth=1.6 * POINT, **style)
    frame.axes.plot(kept, [floor + arrow.tip] * len(kept), linestyle="none", fillstyle="none", marker=arrow.marker,
                    markersize=6 * POINT, markeredgewidth=1.6 * POINT, gid=f"{arrow.kind}-{frame.names[row]}", **style)


def _draw_misses(frame: _Frame, row: int, late: Sequence[Job]) -> None:
    """Draws a cross at each deadline that a task's jobs miss, at the height of a deadline's arrow."""
    ticks = (job.deadline for job in late if job.deadline is not None)
    if kept := _thinning.thin(filter(frame.is_shown, ticks), NEAR / frame.scale):
        frame.axes.plot(kept, [frame.floor(row) + DUE] * len(kept), linestyle="none", marker="X", color=MISS,
                        markersize=10 * POINT, markeredgecolor="white", markeredgewidth=0.8 * POINT, zorder=2.8,
                        clip_on=False, gid=f"miss-{frame.names[row]}")


def _draw_bars(frame: _Frame, every: Iterable[_thinning.Bar], floor: float, unit: float, name: str,
               **style: Any) -> bool:
    """Draws bars on a floor, so high for each unit of speed; narrow ones over the arrows, others below.

    Gives whether any bar is in view.
    """
    from matplotlib.collections import PolyCollection

    cut = [_thinning.Bar(max(bar.begin, frame.first), min(bar.end, frame.last), bar.speed)
           for bar in every if bar.begin < frame.last and bar.end > frame.first]
    corners: dict[bool, list[list[tuple[float, float]]]] = {False: [], True: []}
    for bar in _thinning.join_narrow(cut, frame.coarse(NARROW) / frame.scale, frame.coarse(GAP) / frame.scale):
        is_narrow = (bar.end - bar.begin) * frame.scale < NARROW
        begin, end = bar.begin, max(bar.end, bar.begin + LEAST / frame.scale)
        high = floor + unit * bar.speed
        corners[is_narrow].append([(begin, floor), (begin, high), (end, high), (end, floor)])
    if sum(map(len, corners.values())) < len(cut):
        frame.left_out.add(frame.joined)
    for is_narrow, polygons in corners.items():
        if polygons:
            made = PolyCollection(polygons, linewidth=0, zorder=2.4 if is_narrow else 2,
                                  gid=f"{name}-narrow" if is_narrow else name, **style)
            frame.axes.add_collection(made, autolim=False)
    return bool(cut)


def _draw_completions(frame: _Frame, row: int, kept: Sequence[_thinning.Completion]) -> None:
    heights = [frame.floor(row) + frame.bar_height(done.speed) for done in kept]
    frame.axes.plot([done.at for done in kept], heights, linestyle="none", marker="o",
                    markersize=5.2 * POINT, color="white", markeredgecolor=RIM, markeredgewidth=1.2 * POINT,
                    zorder=2.6, clip_on=False, gid=f"done-{frame.names[row]}")


def _label_completion(frame: _Frame, floor: float, done: _thinning.Completion, text: str) -> None:
    """The units, between release and deadline: above the bars before the completion, or after it, or not."""
    room = LETTER * len(text) + 10
    if frame.room(done.release, done.at) >= room:
        words(frame.axes, done.at - 4 / frame.scale, floor + frame.bar_height(done.highest) + 4, text, ha="right")
    elif frame.room(done.at, frame.last if done.due is None else done.due) >= room:
        words(frame.axes, done.at + 5 / frame.scale, floor + frame.bar_height(done.speed) + 4, text)


def _draw_scale(frame: _Frame) -> None:
    """The scale of speeds: 0, the top, and each speed of the trace that has room beside those before it."""
    line = partial(frame.axes.hlines, xmin=frame.first, xmax=frame.last, color=INK)
    line(0, linewidth=POINT)
    heights: list[float] = []
    for speed in dict.fromkeys([0, frame.top, *(each.speed for each in frame.trace.decisions)]):
        height = frame.speed_height(speed)
        if all(abs(height - other) >= 11 for other in heights):
            heights.append(height)
            line(height, alpha=0.4, linewidth=0.5 * POINT)
            _beside(frame, height, frame.labels.speed(speed), va="center")
    margin = LETTER * len(frame.labels.speed(frame.top)) + 14
    _beside(frame, 36, "speed", margin, fontsize=TEXT)
    _beside(frame, 22, frame.labels.speed_unit, margin)
    _beside(frame, frame.speed_row + 11, "demand", color=DEMAND)
    _beside(frame, -TICKS, frame.labels.time_unit, va="top")


def _draw_speeds(frame: _Frame) -> None:
    """The lines of the speeds and of the demands."""
    speeds = [(begin, end, frame.speed_height(each.speed)) for begin, end, each in frame.spans]
    demands = [(begin, end, frame.speed_height(each.num / each.den)) for begin, end, each in frame.spans]
    draw = partial(frame.axes.plot, clip_on=False, zorder=2.5)
    near = GAP / frame.scale
    draw(*zip(*_thinning.steps(speeds, near)), gid="speed", color=INK, linewidth=1.8 * POINT)
    draw(*zip(*_thinning.steps(demands, near)), gid="demand", color=DEMAND, linewidth=1.6 * POINT, linestyle=DOTS)


def _draw_decisions(frame: _Frame) -> None:
    """A dot for each demand, or a triangle if it is above the picture; and its value, if there is room."""
    places: dict[str, list[tuple[float, float]]] = {"decision": [], "over": []}
    latest: dict[int, float] = {}
    for begin, end, decision in frame.spans:
        y = frame.speed_height(decision.num / decision.den)
        if begin != decision.tick:
            continue
        if (begin - latest.get(int(y / NEAR), -math.inf)) * frame.scale < frame.near:
            frame.left_out.add(frame.near_marks)
            continue
        latest[int(y / NEAR)], value = begin, Fraction(decision.num, decision.den)
        places["over" if value > Fraction(CAP) * frame.top else "decision"].append((begin, y))
        text = frame.labels.speed(value)
        if (end - begin) * frame.scale >= LETTER * len(text) + 6:
            words(frame.axes, begin + 2 / frame.scale, frame.speed_row + 11, text, color=DEMAND)
    for name, marker, size in (("decision", "o", 4.4), ("over", "^", 7)):
        frame.axes.plot([x for x, _ in places[name]], [y for _, y in places[name]], linestyle="none",
                        marker=marker, color=DEMAND, markersize=size * POINT, markeredgewidth=0, zorder=2.7,
                        clip_on=False, gid=name)


def _draw_legend(frame: _Frame, has_idle: bool) -> None:
    what = ("used/worst case" if frame.trace.tasks else "used") + frame.labels.work_unit
    handles = [
        _sign("release", INK, TIP_ABOVE), _sign("deadline", DEADLINE, TIP_BELOW),
        _style.patch(f"run (full height: {frame.labels.speed(frame.top)})", COLOURS[0]),
        _sign(f"done: {what}" + (", with the charge" if frame.view.charge else ""), "white", "o",
              markeredgecolor=RIM),
        _sign("speed", INK, "", linestyle="-"), _sign("demand (dot: decision)", DEMAND, "o", linestyle=DOTS)]
    if any(is_late(job, frame.trace.ticks) for job in chain.from_iterable(frame.jobs.values())):
        handles.append(_sign("missed deadline", MISS, "X", fillstyle="full", markersize=9 * POINT, markeredgewidth=0))
    if has_idle:
        handles.append(_style.patch("idle", INK, 0.3))
    above = Fraction(CAP) * frame.top
    if any(each.num * above.denominator > above.numerator * each.den for _, _, each in frame.spans):
        handles.append(_sign("demand above the picture", DEMAND, "^"))
    handles += [_sign(said, "none", "") for said in (frame.near_marks, frame.joined) if said in frame.left_out]
    longest = max(len(handle.get_label()) for handle in handles)
    high = frame.floor(0) + ROW + TICKS
    _style.legend(frame.axes, handles, max(1, int(frame.width / (longest * 5.5 + 38))), loc="upper left",
           bbox_to_anchor=(0, -20 / high), borderaxespad=0, handlelength=1.5, columnspacing=1.5,
           handletextpad=0.5, borderpad=0)


def _sign(label: str, colour: str, marker: object, **style: Any) -> Any:
    filled = "full" if marker == "o" else "none"
    return _style.sign(label, colour, **{"linestyle": "none", "marker": marker, "markersize": 5 * POINT,
                                  "fillstyle": filled, **style})
