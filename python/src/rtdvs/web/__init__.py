"""Pages for a browser: in one file, or served."""

from rtdvs.web.answers import answer_of
from rtdvs.web.data import (
    MOST_TEXT, SCRIPTS, Shown, apart, boards_of, chunks, first_window, in_one_file, modules, page_data, safe_json,
    with_data,
)
from rtdvs.web.example import Example, example_of, examples, field_of, read_example
from rtdvs.web.lesson import Lesson, LessonExample, LessonPair, lesson_data
from rtdvs.web.marks import mark_pieces
from rtdvs.web.measures import residency
from rtdvs.web.server import LONGEST_CALL, LONGEST_TRY, PORT, PageServer

__all__ = [
    "Example", "LONGEST_CALL", "LONGEST_TRY", "Lesson", "LessonExample", "LessonPair", "MOST_TEXT", "PORT",
    "PageServer", "SCRIPTS", "Shown", "answer_of", "apart", "boards_of", "chunks", "example_of", "examples",
    "field_of", "first_window", "in_one_file", "lesson_data", "mark_pieces", "modules", "page_data", "read_example",
    "residency", "safe_json", "with_data",
]
