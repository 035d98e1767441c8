"""The faults of the network, and the restarts, that are at work in a small run."""
from typing import Dict, Hashable, List, Sequence, Tuple

from .shrinking import early_arrivals
from .steps import Step


def describe_faults(steps: Sequence[Step], names: Sequence[Hashable]) -> List[str]:
    """Returns a sentence for each fault of these steps, which are counted from 1."""
    early = early_arrivals(steps)
    taken: Dict[int, Tuple[int, int]] = {}
    saved: Dict[int, int] = {}
    sentences = []
    for place, step in enumerate(steps):
        name, moment = names[step.replica], place + 1
        if place in early:
            cause = early[place]
            sentences.append(f"message {step.number} arrived before message {cause}, on which it depends")
        elif step.action == "duplicate":
            sentences.append(f"message {step.number} arrived twice")
        elif step.action == "snapshot":
            taken.setdefault(step.number, (step.replica, moment))
        elif step.action == "merge_snapshot" and step.number in taken:
            sender, start = taken[step.number]
            sentences.append(f"a state of {names[sender]!r} taken at step {start} was merged at step {moment}")
        elif step.action == "restart":
            state = f"state of step {saved[step.replica]}" if step.replica in saved else "initial state"
            sentences.append(f"{name!r} restarted from its {state}")
        if step.action in ("update", "save", "join"):
            saved[step.replica] = moment
    return sentences
