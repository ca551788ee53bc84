"""The files that the program reads: task sets, machines, demands, deadlines and requests.

Each is parsed by the rules of docs/FORMATS.md, in the order of docs/MESSAGES.md. The text of a refusal
is the line that the program prints for the same file. `tomllib` reads TOML 1.0: a file with TOML 1.1's additions
(line breaks and a last comma in braces, the escapes `\\e` and `\\x`) is "not TOML" here, and the program
reads it. A key of more than 80 parts, arrays more than 80 deep and dates out of the calendar are refused by
both, not always with the same line.
"""

from rtdvs.model._checks import Table, checked_name, checked_number
from rtdvs.model._formats import document, load, table_text
from rtdvs.model.demands import Deadlines, Demands, Request, Requests
from rtdvs.model.limits import (
    GREATEST, LONGEST_FILE, LONGEST_HYPERPERIOD, LONGEST_LINE, LONGEST_TIME, LONGEST_TRACE, MOST_JOBS,
    MOST_CHARGE, MOST_IDLE, MOST_LINES, MOST_MILLIVOLTS, MOST_SPEED, MOST_TASKS, MOST_TICKS, MOST_WORK, RANGES,
)
from rtdvs.model.machine import Machine, Point
from rtdvs.model.policy import PAIRS, Governor, Pair, Scheduler, pair_of
from rtdvs.model.tasks import Task, TaskSet, jobs_of

__all__ = [
    "Deadlines", "Demands", "GREATEST", "Governor", "LONGEST_FILE", "LONGEST_HYPERPERIOD", "LONGEST_LINE",
    "LONGEST_TIME", "LONGEST_TRACE", "MOST_CHARGE", "MOST_IDLE", "MOST_JOBS", "MOST_LINES", "MOST_MILLIVOLTS",
    "MOST_SPEED", "MOST_TASKS", "MOST_TICKS", "MOST_WORK", "Machine", "PAIRS", "Pair", "Point", "RANGES", "Request",
    "Requests", "Scheduler", "Table", "Task", "TaskSet", "checked_name", "checked_number", "document", "jobs_of",
    "load", "pair_of", "table_text",
]
