"""What a type promises of its transport, and what its class can do."""
import inspect
from typing import Any, Callable, Dict, Hashable, List, Mapping, NamedTuple, Optional, Sequence, Tuple

from .operations import OTHER_NAMES, methods_of

DELIVERIES = ("causal", "any")
# Which parameter of a counter's update is an amount.
AMOUNT_RULE = "an amount is the first parameter of each update and is named `by`"
# The relative frequency of each method, unless the caller chooses others.
WEIGHTS = {
    "increment": 1.0, "decrement": 1.0, "write": 1.0, "add": 2.0, "remove": 1.0, "insert_after": 3.0, "insert": 3.0,
    "delete": 1.0, "insert_at": 3.0, "remove_at": 1.0, "update": 1.0,
}
# Each of two names that a method may have, with the other one.
PAIRED_NAMES = {**OTHER_NAMES, **{other: it for it, other in OTHER_NAMES.items()}}


class Profile(NamedTuple):
    """What the transport of a type may do, and whether its replicas restart."""

    delivery: str = "causal"
    """`causal`, or `any` if messages arrive in any order and the type buffers those that depend on a missing one."""
    duplicates: bool = False
    """Whether a message may arrive again."""
    late_states: bool = False
    """Whether a state may be merged later than it was taken."""
    restarts: bool = False
    """Whether replicas restart from what they saved."""


class Traits(NamedTuple):
    """What the plans for a class depend on."""

    methods: Tuple[str, ...]
    """The methods of its kind that it has."""
    merges: bool = False
    """Whether it merges states instead of receiving messages."""
    forks: bool = False
    """Whether a replica joins as a copy of another one."""
    amounts: bool = False
    """Whether the first parameter of `increment` and `decrement` is an amount `by`."""
    profile: Profile = Profile()
    weights: Mapping[str, float] = WEIGHTS
    untried: Tuple[str, ...] = ()
    """The parameters of a counter's updates for which no argument is passed, each behind its method."""


def traits_of(
    make_replica: Callable[[Hashable], Any], kind: str, name: Hashable, promised: Mapping[str, Any],
    weights: Optional[Mapping[str, float]],
) -> Traits:
    """Returns the traits of a class. Raises `TypeError` if it lacks a method or a counter's update requires a parameter
    that is no amount, and `ValueError` if it cannot keep what is promised."""
    replica = make_replica(name)
    operations = [own_method(replica, it) for it in methods_of(kind)]
    merges = not _has(replica, "receive") and _has(replica, "merge")
    required = [operations[0], "read", *(("state", "merge") if merges else ("receive",))]
    required += ["save", "load"] if promised["restarts"] else []
    missing = [it for it in required if not _has(replica, it)]
    if missing:
        raise TypeError(
            f"a replica of the kind {kind} needs the methods {', '.join(required)}: "
            f"this one lacks {', '.join(missing)}"
        )
    methods = tuple(it for it in operations if _has(replica, it))
    saves = _has(replica, "save") and _has(replica, "load")
    profile = _resolve(merges, saves, **promised)
    amounts = kind == "counter" and all(_takes_amount(getattr(replica, it)) for it in methods)
    untried = _untried_parameters(replica, methods, amounts) if kind == "counter" else ()
    chosen = _chosen_weights(methods, weights)
    return Traits(methods, merges, _has(replica, "fork"), amounts, profile, chosen, untried)


def own_method(replica: Any, method: str) -> str:
    """Returns the name that this replica has for a method, or the method itself if it has none."""
    other = PAIRED_NAMES.get(method, method)
    return other if _has(replica, other) and not _has(replica, method) else method


def _has(replica: Any, method: str) -> bool:
    return callable(getattr(replica, method, None))


def _resolve(
    merges: bool, saves: bool, delivery: str, duplicates: bool, late_states: Optional[bool], restarts: Optional[bool]
) -> Profile:
    if delivery not in DELIVERIES:
        raise ValueError(f"delivery={delivery!r}: expected {' or '.join(map(repr, DELIVERIES))}")
    if merges and (delivery == "any" or duplicates):
        raise ValueError(
            "delivery and duplicates are about messages, and this type merges states, for which late_states is meant: "
            "leave them out"
        )
    if late_states and not merges:
        raise ValueError("late_states=True: this type receives messages; expected one with state() and merge(state)")
    late = merges if late_states is None else late_states
    return Profile(delivery, duplicates, late, saves if restarts is None else restarts)


def _takes_amount(method: Callable[..., Any]) -> bool:
    return any(it.name == "by" and it.kind is not it.KEYWORD_ONLY for it in _parameters(method)[:1])


def _parameters(method: Callable[..., Any]) -> List[inspect.Parameter]:
    """Returns the parameters of a method, without those that collect any arguments."""
    try:
        found = inspect.signature(method).parameters.values()
    except (TypeError, ValueError):
        return []
    return [it for it in found if it.kind not in (it.VAR_POSITIONAL, it.VAR_KEYWORD)]


def _untried_parameters(replica: Any, methods: Sequence[str], amounts: bool) -> Tuple[str, ...]:
    """Returns the parameters of a counter's updates other than the amount. Raises `TypeError` if one is required."""
    untried: List[str] = []
    for method in methods:
        others = _parameters(getattr(replica, method))[1 if amounts else 0 :]
        required = next((it.name for it in others if it.default is it.empty), None)
        if required is not None:
            raise TypeError(
                f"{method} requires the parameter {required}, for which no argument is passed: {AMOUNT_RULE}; rename "
                "the parameter, or give it a default"
            )
        untried += [f"{method}({it.name})" for it in others]
    return tuple(untried)


def _chosen_weights(methods: Sequence[str], weights: Optional[Mapping[str, float]]) -> Dict[str, float]:
    unknown = sorted({*(weights or {})} - {*methods})
    if unknown:
        raise ValueError(f"weights has {unknown[0]!r}: expected the methods of this type, {', '.join(methods)}")
    chosen = {it: (weights or {}).get(it, WEIGHTS[it]) for it in methods}
    if min(chosen.values()) < 0 or chosen[methods[0]] <= 0:
        raise ValueError(f"weights={weights!r}: expected numbers of at least 0, and that of {methods[0]} above 0")
    return chosen


def default_names(count: int) -> List[Hashable]:
    """Returns this number of names in rising order."""
    letters = "abcdefghijklmnopqrstuvwxyz"
    return [*letters[:count]] if count <= len(letters) else [f"r{number:02}" for number in range(count)]
