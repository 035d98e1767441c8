"""Failures as JSON files, which `replay` runs again."""
import json
from typing import Any, Dict, Hashable, List, NamedTuple, Sequence, Tuple

from .profile import DELIVERIES, Profile
from .steps import Step, from_values, to_values

VERSION = 1
KEYS = ("version", "seed", "kind", "replicas", "profile", "steps", "cause", "history")


class Stored(NamedTuple):
    """A failure as its file has it."""

    seed: str
    kind: str
    replicas: List[Hashable]
    profile: Profile
    steps: List[Step]
    cause: Tuple[str, ...]
    history: str
    operation: str = ""
    """What the replica did last, for people who read the file."""


def store(path: str, stored: Stored) -> None:
    """Writes the failure to this file."""
    values: Dict[str, Any] = {"version": VERSION, **stored._asdict()}
    values.update(profile=stored.profile._asdict(), steps=to_values(stored.steps))
    values["replicas"] = [_plain(it) for it in stored.replicas]
    with open(path, "w", encoding="utf-8") as file:
        json.dump(values, file, default=repr)
        file.write("\n")


def load(path: str) -> Stored:
    """Reads a failure from this file. Raises `ValueError` if it has none."""
    with open(path, encoding="utf-8") as file:
        try:
            values = json.load(file)
        except ValueError as error:
            expected = "expected the JSON that check_random wrote"
            raise ValueError(f"{path} is not a stored failure: {error}; {expected}") from None
    missing = [it for it in KEYS if it not in values] if isinstance(values, dict) else list(KEYS)
    if missing:
        raise ValueError(f"{path} is not a stored failure: it lacks {', '.join(missing)}")
    if values["version"] != VERSION:
        raise ValueError(f"{path} has version {values['version']!r} of the format, and this client reads {VERSION}")
    try:
        steps, profile = from_values(values["steps"]), Profile(**values["profile"])
    except (TypeError, ValueError) as error:
        raise ValueError(f"{path} is not a stored failure: {error}") from None
    if profile.delivery not in DELIVERIES:
        raise ValueError(f"{path} has the delivery {profile.delivery!r}: expected {' or '.join(DELIVERIES)}")
    replicas = [_hashable(it) for it in values["replicas"]]
    _require_replicas(path, steps, replicas)
    return Stored(values["seed"], values["kind"], replicas, profile, steps, tuple(values["cause"]), values["history"])


def _require_replicas(path: str, steps: Sequence[Step], replicas: Sequence[Hashable]) -> None:
    for number, step in enumerate(steps, 1):
        if not isinstance(step.replica, int) or not 0 <= step.replica < len(replicas):
            raise ValueError(f"{path}: step {number} is of replica {step.replica!r}, and there are {len(replicas)}")


def _plain(name: Hashable) -> Any:
    if isinstance(name, tuple):
        return [_plain(it) for it in name]
    return name if isinstance(name, (str, int, float, bool)) or name is None else repr(name)


def _hashable(name: Any) -> Hashable:
    hashable: Hashable = tuple(map(_hashable, name)) if isinstance(name, list) else name
    return hashable
