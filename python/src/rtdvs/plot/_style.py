"""What all pictures share: lengths, a colour for white and for dark, and files of the same bytes."""

from collections.abc import Sequence
from io import BytesIO
from pathlib import Path
from typing import TYPE_CHECKING, Any, Literal, TypeAlias, Union

from rtdvs import _files, errors

if TYPE_CHECKING:
    import matplotlib.axes
    import matplotlib.figure

Axes: TypeAlias = "matplotlib.axes.Axes"
Figure: TypeAlias = "matplotlib.figure.Figure"
PIXEL = 1 / 96          # inches
POINT = 0.75            # points in a pixel, for texts and lines
SMALL, TEXT, TITLE = 10 * POINT, 12 * POINT, 15 * POINT
INK = "#797979"
UNDATED: dict[str, dict[str, None]] = {
    "svg": {"Date": None, "Creator": None}, "pdf": {"CreationDate": None}, "png": {"Software": None}}


def settings() -> Any:
    """matplotlib's own settings, for a `with` block; texts stay texts, and the bytes the same.

    >>> import matplotlib
    >>> with settings():
    ...     matplotlib.rcParams["svg.fonttype"]
    'none'
    """
    import matplotlib

    own = {"svg.hashsalt": "rtdvs", "svg.fonttype": "none", "pdf.fonttype": 42,
           "axes.formatter.use_locale": False, "font.sans-serif": ["DejaVu Sans"],
           "font.monospace": ["DejaVu Sans Mono"]}
    kept = {key: value for key, value in matplotlib.rcParamsDefault.items()
            if key not in ("backend", "interactive", "toolbar")}
    return matplotlib.rc_context({**kept, **own})


def new_figure(width: float, height: float) -> Figure:
    """An empty figure; both lengths are in pixels.

    >>> new_figure(192, 96).get_size_inches().tolist()
    [2.0, 1.0]
    """
    from matplotlib import figure

    return figure.Figure(figsize=(width * PIXEL, height * PIXEL), dpi=96)


def save(figure: Figure, path: Path, background: str) -> None:
    """Writes a figure as SVG, PDF or PNG, by the file's name; raises BadValue for another one, and OSError.

    >>> save(new_figure(96, 96), Path("a.gif"), "none")
    Traceback (most recent call last):
    rtdvs.errors.BadValue: a picture is a file .svg, .pdf or .png, and not a.gif
    """
    kind = path.suffix.lower().lstrip(".")
    if kind not in UNDATED:
        raise errors.BadValue(f"a picture is a file .svg, .pdf or .png, and not {path.name}")
    _files.write_whole(path, drawn(figure, kind, background))


def drawn(figure: Figure, kind: str, background: str) -> bytes:
    """A figure as svg, pdf or png.

    >>> drawn(new_figure(96, 96), "pdf", "none")[:5]
    b'%PDF-'
    """
    file = BytesIO()
    figure.savefig(file, format=kind, facecolor=background, dpi=96 if kind == "svg" else 192, metadata=UNDATED[kind])
    return file.getvalue()


def bare(axes: Axes, grid: Literal["x", "y"]) -> None:
    """Leaves nothing of the axes' frame but faint lines at the ticks of x or of y.

    >>> axes = new_figure(96, 96).add_subplot()
    >>> bare(axes, "x")
    >>> any(spine.get_visible() for spine in axes.spines.values())
    False
    """
    axes.set_facecolor("none")
    axes.tick_params(length=0, colors=INK)
    axes.grid(axis=grid, color=INK, alpha=0.35, linewidth=POINT)
    axes.set_axisbelow(True)
    for spine in axes.spines.values():
        spine.set_visible(False)


def pixels(axes: Axes) -> float:
    """The width of axes in pixels.

    >>> from matplotlib.figure import Figure
    >>> round(pixels(Figure(figsize=(2, 1)).add_axes((0, 0, 0.5, 1))))
    96
    """
    return float(axes.get_position().width * axes.figure.figure.get_figwidth() / PIXEL)


def words(axes: Axes, x: float, y: float, text: str, **style: Any) -> None:
    """A text at a place of the axes, small unless the style says otherwise.

    >>> axes = new_figure(96, 96).add_subplot()
    >>> words(axes, 0, 1, "idle")
    >>> axes.texts[0].get_text(), axes.texts[0].get_fontsize()
    ('idle', 7.5)
    """
    axes.text(x, y, text, **{"fontsize": SMALL, "color": INK, **style})


def beside(axes: Axes, place: tuple[float, float], offset: tuple[float, float], text: str, **style: Any) -> None:
    """A text outside of the axes, some pixels from a place.

    >>> axes = new_figure(96, 96).add_subplot()
    >>> beside(axes, (0, 1), (-8, 0), "t1")
    >>> axes.texts[0].get_text()
    't1'
    """
    away = offset[0] * POINT, offset[1] * POINT
    axes.annotate(text, place, xytext=away, textcoords="offset points", annotation_clip=False,
                  **{"fontsize": SMALL, "color": INK, **style})


def sign(label: str, colour: str, **style: Any) -> Any:
    """A line or a mark for a legend.

    >>> sign("release", "red", marker="o").get_marker()
    'o'
    """
    from matplotlib.lines import Line2D

    return Line2D([], [], label=label, color=colour, **style)


def patch(label: str, colour: str, alpha: float = 1) -> Any:
    """A rectangle for a legend.

    >>> patch("idle", "red", 0.5).get_alpha()
    0.5
    """
    from matplotlib.patches import Patch

    return Patch(facecolor=colour, alpha=alpha, label=label)


def legend(of: Union[Axes, Figure], handles: Sequence[Any], columns: int, **style: Any) -> None:
    """Adds a legend without a frame to axes or to a figure.

    >>> axes = new_figure(96, 96).add_subplot()
    >>> legend(axes, [patch("idle", "red")], 1)
    >>> [text.get_text() for text in axes.get_legend().texts]
    ['idle']
    """
    of.legend(handles=handles, ncol=columns, frameon=False, fontsize=SMALL, labelcolor=INK, **style)


def legend_above(axes: Axes, handles: Sequence[Any]) -> None:
    """A legend in one row above axes, at their right end."""
    legend(axes, handles, max(1, len(handles)), loc="lower right", bbox_to_anchor=(1, 1), handlelength=1,
           columnspacing=1, borderpad=0)


def rows_below(axes: Axes, title: str, names: Sequence[str]) -> None:
    """A row for each name, one below the other, and a title above them."""
    bare(axes, "x")
    axes.set_title(title, loc="left", fontsize=SMALL, color=INK)
    axes.set_ylim(len(names) - 0.5, -0.5)
    axes.set_yticks(range(len(names)), names, fontsize=TEXT)


def shares(axes: Axes) -> None:
    """Shares from 0 to 1 along the bottom."""
    axes.set_xlim(0, 1)
    axes.set_xticks([0, 0.25, 0.5, 0.75, 1], ["0.00", "0.25", "0.50", "0.75", "1.00"], fontsize=SMALL)
