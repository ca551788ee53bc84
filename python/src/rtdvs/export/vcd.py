"""Traces as waves, for GTKWave."""

from collections.abc import Iterator, Sequence
from itertools import groupby
from operator import itemgetter

from rtdvs._numbers import significant
from rtdvs.trace import REALS, Decision, Done, Idle, Noted, Position, Release, Run

MILLION = 10**6


def vcd_text(trace: Noted) -> str:
    """A trace as a value change dump, for GTKWave, PulseView and sigrok, in picoseconds.

    A task `t1` has the wires `t1`, which is 1 while it runs, and `t1/open`, from a job's release until its
    end. Beside them are idle time, the number of the job that runs (0 if none), the speed, the published
    demand and the energy so far, to 15 digits. These numbers are reals: libsigrok reads no further than a
    vector of several bits.

    >>> from rtdvs.trace import SAMPLE, Trace
    >>> vcd_text(Trace.parse(SAMPLE)).splitlines()[-3:]
    ['1r0', '#2000000', 'r6000 e']
    """
    return "".join(wave_lines(trace))


def wave_lines(trace: Noted) -> Iterator[str]:
    r"""The lines of that text, one after the other.

    >>> from rtdvs.trace import SAMPLE, Trace
    >>> next(wave_lines(Trace.parse(SAMPLE)))
    '$timescale 1 ps $end\n'
    """
    yield from (f"{line}\n" for line in _definitions(trace.names))
    for time, moment in groupby(_changes(trace), itemgetter(0)):
        yield f"#{time}\n"
        yield from (f"{line}\n" for _, line in moment)


def _definitions(names: Sequence[str]) -> Iterator[str]:
    yield from ("$timescale 1 ps $end", "$var wire 1 r0 idle $end")
    yield from (f"$var real 64 {letter} {name} $end" for letter, name in REALS.items())
    yield "$scope module tasks $end"
    for number, name in enumerate(names, 1):
        yield from (f"$var wire 1 r{number} {name} $end", f"$var wire 1 o{number} {name}/open $end")
    yield from ("$upscope $end", "$enddefinitions $end")


def _initial(tasks: int) -> Iterator[str]:
    """Each wire's value at tick 0, which is idle."""
    wires = (f"0{letter}{number}" for number in range(1, tasks + 1) for letter in "ro")
    yield from ("$dumpvars", "1r0", *(f"r0 {letter}" for letter in REALS), *wires, "$end")


def _changes(trace: Noted) -> Iterator[tuple[int, str]]:
    """The changes of the wires, each with its time."""
    wires = {name: number for number, name in enumerate(("", *trace.names))}
    running = spent = 0
    yield from ((0, line) for line in _initial(len(trace.names)))
    for note, speed in trace.at_speeds():
        if isinstance(note, Release):
            yield note.tick * MILLION, f"1o{wires[note.task]}"
        elif isinstance(note, Decision):
            yield note.tick * MILLION, f"r{note.speed} s"
            yield note.tick * MILLION, f"r{significant(note.num, note.den, 9)} d"
        elif isinstance(note, Done):
            yield millionths(note.at, speed), f"0o{wires[note.task]}"
        elif isinstance(note, Run | Idle):
            wire, job = (wires[note.task], note.job) if isinstance(note, Run) else (0, 0)
            switch = (f"0r{running}", f"1r{wire}") if wire != running else ()
            running, spent = wire, spent + note.energy
            yield from ((millionths(note.begin, speed), line) for line in (f"r{job} j", *switch))
            yield millionths(note.end, speed), f"r{significant(spent, 1, 15)} e"


def millionths(position: Position, speed: int) -> int:
    """A position in millionths of a tick, at a speed in work units per tick.

    >>> millionths(Position(9, 1), 3)
    9333333
    """
    return round(position.time(speed) * MILLION)
