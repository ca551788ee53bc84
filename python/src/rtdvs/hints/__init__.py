"""Second lines of refusals, and the table of the program's lines, of which docs/MESSAGES.md is made."""

from rtdvs.hints.given import Given, Source, Word
from rtdvs.hints.second import second_line
from rtdvs.hints.table import Row, sections
from rtdvs.hints.words import COMMANDS, FILE_OPTIONS, FILES, FLAGS, VALUES, Usage

__all__ = ["COMMANDS", "FILES", "FILE_OPTIONS", "FLAGS", "Given", "Row", "Source", "Usage", "VALUES", "Word",
           "second_line", "sections"]
