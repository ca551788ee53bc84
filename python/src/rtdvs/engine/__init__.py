"""Calls of the program, by a process, by the shared library, or by `rt try`."""

from rtdvs.engine.answers import (
    Admitted, Constrained, GovernorTotals, Least, Polled, Replayed, RunTotals, Service, parse_admitted,
    parse_constrained, parse_least, parse_polled, parse_replayed, parse_responses, parse_totals, parse_trace,
    parse_workload,
)
from rtdvs.engine.calls import (
    Answer, Call, DeadlineSource, DemandSource, MachineSource, RequestSource, Source, TaskSource, TraceSource, Word,
    admit_call, constrain_call, least_call, migrate_call, poll_call, replay_call, response_call, run_call,
    totals_call, workload_call,
)
from rtdvs.engine.engine import CRATE, Engine, LibraryEngine, TryEngine, find_engine
from rtdvs.engine.library import Lengths, answer, main, opened, option_values
from rtdvs.engine.process import Stop, end_calls, is_stopped, stop_calls, wait_for_calls

__all__ = [
    "Admitted", "Answer", "CRATE", "Call", "Constrained", "DeadlineSource", "DemandSource", "Engine", "GovernorTotals",
    "Least", "Lengths", "LibraryEngine", "MachineSource", "Polled", "Replayed", "RequestSource", "RunTotals", "Service",
    "Source", "Stop", "TaskSource", "TraceSource", "TryEngine", "Word", "admit_call", "answer", "constrain_call",
    "end_calls", "find_engine", "is_stopped", "least_call", "main", "migrate_call", "opened", "option_values",
    "parse_admitted", "parse_constrained", "parse_least", "parse_polled", "parse_replayed", "parse_responses",
    "parse_totals", "parse_trace", "parse_workload", "poll_call", "replay_call", "response_call", "run_call",
    "stop_calls", "totals_call", "wait_for_calls", "workload_call",
]
