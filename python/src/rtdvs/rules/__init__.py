"""The rules of the schedulers and governors: a simulator, and a checker that explains."""

from rtdvs.rules.checker import Walk
from rtdvs.rules.explanation import check, explain, last_line
from rtdvs.rules.governors import GOVERNORS, Chooser
from rtdvs.rules.plan import JobView, Plan, Priority
from rtdvs.rules.simulation import simulate
from rtdvs.rules.state import View
from rtdvs.rules.step import Summary

__all__ = [
    "Chooser", "GOVERNORS", "JobView", "Plan", "Priority", "Summary", "View", "Walk", "check", "explain", "last_line",
    "simulate",
]
