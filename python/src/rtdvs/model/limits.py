"""The greatest and least numbers that files, runs and traces may have."""

GREATEST = 2**64 - 1
"""The greatest number in CSV files and arguments."""
LONGEST_FILE, LONGEST_TRACE = 2**24, 2**28
"""In bytes."""
LONGEST_LINE, MOST_LINES = 255, 800_000
"""Of a line of a trace, and of a trace."""
MOST_TASKS, MOST_POINTS, MOST_REQUESTS, MOST_JOBS = 64, 32, 100_000, 100_000
LONGEST_TIME, MOST_WORK, LONGEST_HYPERPERIOD, MOST_TICKS = 2**40, 2**60, 2**48, 2**40
MOST_SPEED, MOST_MILLIVOLTS, MOST_IDLE, MOST_CHARGE = 1_000_000, 20_000, 1_000, 1_000_000
RANGES = {
    "period": (1, LONGEST_TIME), "worst": (1, MOST_WORK), "offset": (0, LONGEST_TIME),
    "speed": (1, MOST_SPEED), "millivolts": (1, MOST_MILLIVOLTS), "idle": (0, MOST_IDLE),
    "charge": (0, MOST_CHARGE), "ticks": (1, MOST_TICKS),
}
"""The least and the greatest number of each field, and of the ticks of a run."""
