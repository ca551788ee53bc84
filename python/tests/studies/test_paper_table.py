"""The table of the paper's example, against energies worked out by hand.

A unit costs 9, 16 and 25 thousand million at speeds 2, 3 and 4, and the jobs need 28 units, each times k. In
time without ticks they run so:

    EDF and RM at 4: 28 * 25 = 700        EDF static at 3: 28 * 16 = 448
    EDF cc: 16 at 3, 12 at 2, 364         EDF la: 8 at 3, 20 at 2, 308
    RM cc: 12 at 4, 8 at 3, 8 at 2, 500

In ticks k times finer a speed lasts to the end of the tick in which a job ends. Under EDF cc the rest of such
a tick idles, or is followed by speed 3 again. Under RM cc the first job of t2 ends 4/3 of a tick after that
of t1, and under EDF la that of t1 ends at 8/3: the rest of that tick runs the next job at 3 in place of 2.
Such a unit costs 7 more.
"""

from fractions import Fraction
from pathlib import Path

import pytest

from rtdvs.engine import Engine
from rtdvs.studies import PAPER_EXAMPLE, PAPER_PAIRS, paper_shares
from rtdvs.trace import Done, Trace
from tests.shared.examples import Captured, files, printed


def rest(units: int, times: int) -> int:
    """The units of the tick at speed 3 in which a job ends that come after it."""
    return -units * times % 3


@pytest.mark.parametrize("times", [1, 2, 3, 10, 100, 1000, 10000])
def test_by_hand(engine: Engine, times: int) -> None:
    rm_cc = 500 + Fraction(7 * rest(4, times), times)
    edf_la = 308 + Fraction(7 * rest(8, times), times)
    energies = [*map(Fraction, (700, 700, 448, 364)), rm_cc, edf_la]
    assert paper_shares(engine, times) == tuple(energy / 700 for energy in energies)


@pytest.mark.parametrize("pair", PAPER_PAIRS, ids="-".join)
def test_no_job_is_complete_inside_a_tick_if_there_are_3(engine: Engine, pair: tuple[str, str]) -> None:
    case = PAPER_EXAMPLE.finer(3)
    trace = engine.run(case.tasks, case.machine, *pair, case.ticks, case.demands)
    assert {note.at.offset for note in trace.notes if isinstance(note, Done)} == {0}


def test_the_example_is_that_of_the_files() -> None:
    assert (PAPER_EXAMPLE.tasks, PAPER_EXAMPLE.machine, PAPER_EXAMPLE.demands) == files("paper")


def test_printed(program: Path, capsys: Captured) -> None:
    assert printed(capsys, ["paper-table", "--program", program, "--finer", "1", "3", "100"]) == (
        "     k        none   RM static  EDF static      EDF cc       RM cc      EDF la\n"
        "     1    1.000000    1.000000    0.640000    0.520000    0.734286    0.450000\n"
        "     3    1.000000    1.000000    0.640000    0.520000    0.714286    0.440000\n"
        "   100    1.000000    1.000000    0.640000    0.520000    0.714486    0.440100\n"
        " paper         1.0         1.0        0.64        0.52        0.71        0.44\n")
