"""A conventional convergence test: random operations, everything delivered, and the replicas compared."""
import random

NAMES = ["a", "b", "c"]


def operate(replica, kind, rng, inserted):
    """Runs one random operation, and returns its message."""
    if kind == "counter":
        return rng.choice([replica.increment, replica.decrement])()
    if kind == "register":
        return replica.write(rng.randrange(100))
    if kind == "rga":
        shown = replica.read()
        if shown and rng.random() < 0.3:
            return replica.remove(rng.choice(shown))
        inserted.append(len(inserted) + 1)
        return replica.insert_after(rng.choice([None, *shown]), inserted[-1])
    return rng.choice([replica.add, replica.add, replica.remove])(rng.randrange(4))


def converges(make, kind, seed, rounds=5, operations=2):
    """Returns whether all replicas agree after each round: concurrent operations first, then all deliveries."""
    rng, inserted = random.Random(seed), []
    replicas = {name: make(name) for name in NAMES}
    for _ in range(rounds):
        sent = {name: [] for name in NAMES}
        for name in rng.sample(NAMES * operations, len(NAMES) * operations):
            sent[name].append(operate(replicas[name], kind, rng, inserted))
        for name, replica in replicas.items():
            inboxes = [list(sent[other]) for other in NAMES if other != name]
            while any(inboxes):  # each sender's messages in their order, the senders mixed at random
                replica.receive(rng.choice([it for it in inboxes if it]).pop(0))
        states = [it.read() if kind in ("counter", "register", "rga") else set(it.read()) for it in replicas.values()]
        if any(it != states[0] for it in states):
            return False
    return True
