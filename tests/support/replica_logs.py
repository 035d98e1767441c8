"""Logs of a replicated register: three nodes with skewed wall clocks, whose reads are right by construction."""
import json
import random

NODES = ("node1", "node2", "node3")
# The first moment in milliseconds, and how far the wall clock of each node is off: 40 s late, and 2 minutes early.
START, SKEW = 1_764_324_000_000, {"node1": 0, "node2": -40_000, "node3": 120_000}


class Node:
    """A node: its log, its hybrid logical clock, its register, and how many of all messages it has received."""

    def __init__(self, name):
        self.name, self.lines, self.received = name, [], 0
        self.clock, self.stamp, self.value, self.older = 0, (0, ""), None, None

    def log(self, now, operation, **fields):
        line = {"time": now + SKEW[self.name], "replica": self.name, "operation": operation, **fields}
        self.lines.append(line)

    def apply(self, stamp, value):
        """Applies a write, which the greatest stamp wins."""
        self.clock = max(self.clock, stamp[0])
        if stamp > self.stamp:
            self.older, self.stamp, self.value = self.value, stamp, value


def register_logs(count, seed):
    """The lines of each node, `count` in all. A node's deliveries are causal, since they follow the order of sends."""
    source, now, sent = random.Random(seed), START, []
    nodes = {name: Node(name) for name in NODES}
    while sum(len(it.lines) for it in nodes.values()) < count:
        now += source.randrange(40)
        node = nodes[source.choice(NODES)]
        act = source.random()
        if act < 0.2:
            write(node, now, sent)
        elif act < 0.7 and node.received < len(sent):
            receive(node, now, sent)
        else:
            node.log(now, "read", value=node.value)
    return {name: node.lines for name, node in nodes.items()}


def write(node, now, sent):
    node.clock = max(node.clock + 1, now + SKEW[node.name])
    message, value = f"{node.name}/{len(sent)}", f"value {len(sent)}"
    node.log(now, "write", value=value, stamp=node.clock, message=message)
    node.apply((node.clock, node.name), value)
    sent.append((node.name, message, (node.clock, node.name), value))


def receive(node, now, sent):
    sender, message, stamp, value = sent[node.received]
    node.received += 1
    if sender != node.name:
        node.log(now, "deliver", message=message)
        node.apply(stamp, value)


def plant_stale_read(lines, after):
    """Has the first read of a node behind this line return the value of an earlier read. Returns the line's number."""
    reads = [number for number, it in enumerate(lines, 1) if it["operation"] == "read"]
    stale = next(it for it in reads if it > after)
    values = [lines[it - 1]["value"] for it in reads if it < stale]
    lines[stale - 1]["value"] = next(it for it in reversed(values) if it not in (None, lines[stale - 1]["value"]))
    return stale


def write_lines(path, lines):
    path.write_text("".join(f"{json.dumps(it)}\n" for it in lines), encoding="utf-8")
