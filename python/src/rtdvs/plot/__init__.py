"""Pictures by matplotlib, which is imported when one is drawn."""

from rtdvs.plot._thinning import Bar, join_narrow, round_step, steps, thin
from rtdvs.plot.board import plot_power, plot_responses, save_report
from rtdvs.plot.comparison import plot_compare, save_compare
from rtdvs.plot.evaluation import Mean, parse_means, plot_means, save_means
from rtdvs.plot.schedule import View, plot_trace, save_trace, settled, svg_text, trace_height

__all__ = [
    "Bar", "Mean", "View", "join_narrow", "parse_means", "plot_compare", "plot_means", "plot_power", "plot_responses",
    "plot_trace", "round_step", "save_compare", "save_means", "save_report", "save_trace", "settled", "steps",
    "svg_text", "thin", "trace_height",
]
