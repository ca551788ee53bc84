"""Comparisons, limits, random sets, the evaluation and exercises."""

from rtdvs.studies.comparison import (
    FINER, HEADING, PAIRS, PAPER_EXAMPLE, PAPER_PAIRS, PUBLISHED, Case, Comparison, Result, Row, cells, compare,
    finer_energies, finer_table, paper_lines, paper_shares, runs, table, totals, units_of,
)
from rtdvs.studies.evaluation import (
    CURVES, FIGURES, MACHINES, TENTHS, Panel, Record, Sweep, broken, evaluate, faults, figure_table, finished,
    measure, panels_of, point, read_records, recount, shares, summary, units_at_top,
)
from rtdvs.studies.exercises import BOARD, Exercise, exercise
from rtdvs.studies.grading import Asked, Grade, Grades, expected, grade, grades, handed_in, mended
from rtdvs.studies.own import Own, OwnGovernor, OwnTraces, scaled_to
from rtdvs.studies.published import (
    DRAWS, PUBLISHED_COUNTS, PUBLISHED_MILLISECOND, PUBLISHED_SEED, PUBLISHED_TOP, SetName, published_sets,
    uunifast_sets,
)
from rtdvs.studies.random_sets import (
    MOST_SEED, PUBLISHED_TICKS, Listed, LogUniform, require, taken, taken_uniform, uunifast,
)
from rtdvs.studies.margins import TESTS, Limits, Question, confirmed, limits_of, limits_table, sensitivity

__all__ = [
    "Asked", "BOARD", "CURVES", "Case", "Comparison", "DRAWS", "Exercise", "FIGURES", "FINER", "Grade", "Grades",
    "HEADING", "Limits", "Listed", "LogUniform", "MACHINES", "MOST_SEED", "Own", "OwnGovernor", "OwnTraces", "PAIRS",
    "PAPER_EXAMPLE", "PAPER_PAIRS", "PUBLISHED", "PUBLISHED_COUNTS", "PUBLISHED_MILLISECOND", "PUBLISHED_SEED",
    "PUBLISHED_TICKS", "PUBLISHED_TOP", "Panel", "Question", "Record", "Result", "Row", "SetName", "Sweep", "TENTHS",
    "TESTS", "broken", "cells", "compare", "confirmed", "evaluate", "exercise", "expected", "faults", "figure_table",
    "finer_energies", "finer_table", "finished", "grade", "grades", "handed_in", "limits_of", "limits_table", "measure",
    "mended", "panels_of", "paper_lines", "paper_shares", "point", "published_sets", "read_records", "recount",
    "require", "runs", "scaled_to", "sensitivity", "shares", "summary", "table", "taken", "taken_uniform", "totals",
    "units_at_top", "units_of", "uunifast", "uunifast_sets",
]
