"""Traces as trace events, for Chrome and Perfetto."""

from collections.abc import Iterator

from rtdvs._numbers import significant
from rtdvs.trace import Decision, Done, Idle, Release, Run, Trace, TraceFile, ticks

IDLE_TRACK = 65
EXACT = 2**53
"""Up to here each whole number is a float of its own."""


def events_text(trace: Trace | TraceFile) -> str:
    """A trace as trace events in JSON, for Perfetto and Chrome.

    A track for each task and one for idle time, with the release and the end of each job; counters for the
    speed and the published demand. Energies are text, and so are units and numbers of jobs past 2^53, since a
    number in JSON may lose digits there.

    >>> import json
    >>> from rtdvs.trace import SAMPLE
    >>> len(json.loads(events_text(Trace.parse(SAMPLE)))["traceEvents"])
    14
    """
    return "".join(event_lines(trace))


def event_lines(trace: Trace | TraceFile) -> Iterator[str]:
    """The lines of that text, one after the other.

    >>> from rtdvs.trace import SAMPLE
    >>> next(event_lines(Trace.parse(SAMPLE)))
    '{"traceEvents":[\\n'
    """
    yield '{"traceEvents":[\n'
    for number, event in enumerate(_events(trace)):
        yield f",\n{event}" if number else event
    yield "\n]}\n"


def _exact(number: int) -> int | str:
    """A number in JSON, or a text where a reader may lose digits."""
    return number if number <= EXACT else f'"{number}"'


def _events(trace: Trace | TraceFile) -> Iterator[str]:
    tracks = {"": IDLE_TRACK} | {name: number for number, name in enumerate(trace.names, 1)}
    yield _event("M", "process_name", 0, args=_object(name=f'"{trace.scheduler} {trace.governor}"'))
    for name, number in tracks.items():
        yield _event("M", "thread_name", number, args=_object(name=f'"{name or "idle"}"'))
        yield _event("M", "thread_sort_index", number, args=_object(sort_index=number))
    for note, speed in trace.at_speeds():
        if isinstance(note, Decision):
            for name, value in ("speed", str(note.speed)), ("demand", significant(note.num, note.den, 9)):
                yield _event("C", name, 0, ts=note.tick, args=_object(**{"units per tick": value}))
        elif isinstance(note, Release):
            yield _event("i", f"release {note.job}", tracks[note.task], s='"t"', ts=note.tick)
        elif isinstance(note, Done):
            yield _event("i", f"done {note.job}", tracks[note.task], s='"t"', ts=ticks(note.at.time(speed)),
                         args=_object(used=_exact(note.used)))
        elif isinstance(note, Run | Idle):
            name, job = (note.task, f"{note.task} {note.job}") if isinstance(note, Run) else ("", "idle")
            begin, end = note.begin.time(speed), note.end.time(speed)
            yield _event("X", job, tracks[name], ts=ticks(begin), dur=ticks(end - begin),
                         args=_object(units=_exact(note.units), energy=f'"{note.energy}"'))


def _event(phase: str, name: str, track: int, **fields: int | str) -> str:
    return _object(pid=1, ph=f'"{phase}"', name=f'"{name}"', tid=track, **fields)


def _object(**values: int | str) -> str:
    """An object of values that are JSON already: as floats they would be rounded."""
    return "{" + ",".join(f'"{key}":{value}' for key, value in values.items()) + "}"
