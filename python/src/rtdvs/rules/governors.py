"""The published demands of docs/RULES.md, and governors of your own."""

from collections.abc import Callable, Mapping
from fractions import Fraction
from operator import mul

from rtdvs.errors import BadValue
from rtdvs.model import pair_of
from rtdvs.rules.plan import EXAMPLE, Demand, Plan
from rtdvs.rules.state import State, View

Rule = Callable[[State], Demand]
"""The published demand at a decision, of one of the seven pairs."""
Chooser = Callable[[View], int | Fraction | Demand]
"""A governor of your own: the demand at a decision, in work units per tick."""
MOST = 2**128 - 1

def full(state: State) -> Demand:
    """`none`: the highest speed.

    >>> full(State.begin(EXAMPLE))
    (4, 1)
    """
    return state.plan.machine.top_speed, 1


def static(state: State) -> Demand:
    """`static`: the demand of the scheduler's test.

    >>> static(State.begin(EXAMPLE))
    (30, 12)
    """
    return state.plan.static


def edf_cycle(state: State) -> Demand:
    """`cc` under EDF: open jobs count by their worst cases, complete ones by what they had.

    >>> state = State.begin(EXAMPLE)
    >>> state.release(state.jobs[0])
    >>> edf_cycle(state)  # 4 * 12/4
    (12, 12)
    """
    plan, charged = state.plan, [job.used if job.complete else job.worst for job in state.jobs]
    return sum(map(mul, charged, plan.weights)), plan.hyperperiod


def rm_cycle(state: State) -> Demand:
    """`cc` under RM: what is left of the units that the static speed does up to the earliest deadline.

    >>> state = State.begin(Plan(EXAMPLE.tasks, EXAMPLE.machine, "rm"))
    >>> [state.release(job) for job in state.jobs] and state.hand_out()
    >>> rm_cycle(state)  # 4 + 9, in 4 ticks
    (13, 4)
    """
    end = state.first_deadline
    start, handed = state.last.handed
    room, total = (end - start) * state.plan.static_speed, 0
    for job, might in handed:
        if room == 0:
            break
        allotted = min(might, room)
        room -= allotted
        if not job.complete:
            total += max(0, allotted - (might - job.left))
    return total, end - state.now


def edf_ahead(state: State) -> Demand:
    """`la` under EDF: what can't be put off past the earliest deadline.

    >>> state = State.begin(EXAMPLE)
    >>> [state.release(job) for job in state.jobs] and edf_ahead(state)  # 4, and 3 of b's 9
    (7, 4)
    """
    plan, first, jobs = state.plan, state.deadlines[0][0], state.jobs
    hyper, rates, spare, before = plan.hyperperiod, plan.rates, plan.spare, 0
    for due, place in reversed(state.deadlines) if state.open else ():
        spare += rates[place]
        left = jobs[place].left
        if not left:
            continue
        span = due - first
        put_off = max(0, spare * span // hyper)  # 0 only if the set isn't admitted
        if put_off < left:
            before += left - put_off
            left = put_off
        if left:
            spare += -left * hyper // span  # less the rate, rounded up
    return before, first - state.now


GOVERNORS: Mapping[tuple[str, str], Rule] = {
    ("edf", "none"): full, ("edf", "static"): static, ("edf", "cc"): edf_cycle, ("edf", "la"): edf_ahead,
    ("rm", "none"): full, ("rm", "static"): static, ("rm", "cc"): rm_cycle,
}


def rule_of(plan: Plan, governor: str | Chooser, name: str) -> Rule:
    """What a governor asks for: that of a pair, by its word, or of a function; BadValue for no pair.

    >>> rule_of(EXAMPLE, "none", "none")(State.begin(EXAMPLE))
    (4, 1)
    >>> rule_of(EXAMPLE, "slow", "slow")
    Traceback (most recent call last):
    rtdvs.errors.BadValue: a governor is none, static, cc, la, not slow
    """
    if callable(governor):
        return asked_of(governor, name)
    if not callable(plan.scheduler):
        return GOVERNORS[pair_of(plan.scheduler, governor)]
    if governor != "none":
        raise BadValue(f"a scheduler that is a function has no governor {governor}")
    return full


def asked_of(governor: Chooser, name: str) -> Rule:
    """A rule that asks a function, whose answer is checked.

    >>> asked_of(lambda view: Fraction(3, 2), "mine")(State.begin(EXAMPLE))
    (3, 2)
    >>> asked_of(lambda view: 0.5, "mine")(State.begin(EXAMPLE))  # doctest: +ELLIPSIS
    Traceback (most recent call last):
    rtdvs.errors.BadValue: governor mine at tick 0: a whole number, ... not 0.5
    """
    def rule(state: State) -> Demand:
        answer = governor(state.view())
        pair: object = answer if isinstance(answer, tuple) else (answer, 1)
        if isinstance(answer, Fraction):
            pair = answer.as_integer_ratio()
        num, den = pair if isinstance(pair, tuple) and len(pair) == 2 else (None, None)
        if type(num) is int and type(den) is int and 0 <= num <= MOST and 1 <= den <= MOST:
            return num, den
        wanted = "a whole number, a fraction or a pair of whole numbers, from 0 and below 2^128"
        raise BadValue(f"governor {name} at tick {state.now}: {wanted}, not {answer!r}")

    return rule
