"""Traces of runs: their notes, read strictly, and what these say of the jobs.

The text is that of docs/TRACE.md in version 1 or 2, except that any word may be the governor.
Energies and work units are whole numbers of any size. A position is a tick and the units of that tick that
have passed; as a time it is an exact fraction of ticks, the units over the speed in force.
"""

from rtdvs.trace._noted import Noted, wrong_energy, wrong_sums
from rtdvs.trace.jobs import Job, Miss, Missed, Ran, is_late, late_jobs, ran_at, split_governor
from rtdvs.trace.notes import Decision, Done, End, Head, Idle, Line, Note, Position, Release, Run, TaskEnergy, task_text
from rtdvs.trace.reader import NO_FRACTION, Reader, closing_fault, lines_of, parse_lines
from rtdvs.trace.tables import (
    COLUMNS, REALS, TABLES, Statistics, TaskStatistics, csv_lines, csv_text, frame, rows, task_statistics, ticks,
)
from rtdvs.trace.whole import SAMPLE, Trace, TraceFile

__all__ = [
    "COLUMNS", "Decision", "Done", "End", "Head", "Idle", "Job", "Line", "Miss", "Missed", "NO_FRACTION", "Note",
    "Noted", "Position", "REALS", "Ran", "Reader", "Release", "Run", "SAMPLE", "Statistics", "TABLES", "TaskEnergy",
    "TaskStatistics", "Trace", "TraceFile", "closing_fault", "csv_lines", "csv_text", "frame", "is_late",
    "late_jobs", "lines_of", "parse_lines", "ran_at", "rows", "split_governor", "task_statistics", "task_text", "ticks",
    "wrong_energy", "wrong_sums",
]
