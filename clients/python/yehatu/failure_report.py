"""Reports on a failed history, in the user's names."""
import os
import tempfile
from typing import Any, Dict, Hashable, List, Mapping, Optional, Sequence, Tuple

from . import program as programs
from .errors import MonitorExited, NotLinearizable, Refused
from .shown import first_equal_read, observed_identifiers
from .translation import Translator, is_operation

# The largest number of a history's last lines in a message.
SHOWN_LINES = 16
HEADER_LINES = 2
# The largest number of suggested changes in a message.
SHOWN_CHANGES = 5
MEANINGS = {
    "order": "its clock is not greater than each clock that it sees",
    "update": "it cannot be applied at its position in the order",
    "query": "its result does not follow from the updates that it sees",
    "stamp-taken": "another operation of its replica used this clock before",
    "id-taken": "another addition used this identifier before",
}
# The meanings of a list's violations.
LIST_MEANINGS = {
    "order": "no single order of the elements agrees with all reads and insertions",
    "update": "it inserts an element that was inserted before, or names one that was not",
    "query": "it does not follow from the updates that it sees",
}
# The meanings of the violations of each kind, where they differ.
OWN_MEANINGS = {
    "list": LIST_MEANINGS,
    "any": {"query": "an earlier read that sees the same updates returned another value"},
    "mvregister": {
        "query": "it does not return exactly the values of the visible writes that no other visible write replaced",
    },
}
# What may be wrong with a violation of an RGA.
OTHER_CLOCKS = "if the type does not order its elements by clocks of its own, check it as the kind list"
NOT_CAUSAL = "refused not-causal "
# By what `explain` says of other orders than that of the clocks.
OTHER_ORDERS = {
    True: "another order explains what was reported: suspect a clock, a tie-break or a delivery",
    False: "no order explains what was reported, whatever the clocks are",
}


class FailureReport:
    """The commands of a failed history, described in the user's names.

    `message_keys` has the key of each label's message, and `notes` the lines that are printed before the command with
    a given number. `places`, if any, has the place of each command in a log, which descriptions then begin with.
    `calls` has the call of each message's update of any type, by the message's key.
    """

    def __init__(
        self, translator: Translator, text: str, message_keys: Dict[int, Hashable], notes: Dict[int, List[str]],
        places: Sequence[object] = (), calls: Mapping[Any, str] = {},
    ) -> None:
        self._translator = translator
        self._message_keys = message_keys
        self._notes = notes
        self._places = places
        self.commands = text.splitlines()[HEADER_LINES:]
        self._command_of = [number for number, line in enumerate(self.commands) if is_operation(line)]
        self._calls = {
            self._command_of[label]: calls[key] for label, key in message_keys.items()
            if key in calls and label < len(self._command_of)
        }

    def describe(self, command: int) -> str:
        """Returns a description of the command with this number."""
        description = self._translator.describe(self.commands[command], self._describe_label)
        if command in self._calls:
            description += f": {self._calls[command]}"
        return f"{self._places[command]}: {description}" if self._places else description

    def _describe_label(self, label: int) -> str:
        command = self._command_of[label]
        key = f"message {self._message_keys[label]!r}" if label in self._message_keys else ""
        if self._places:
            return f"{key or 'an update'} ({self.describe(command)})"
        return f"{key}{', ' if key else ''}label {label} ({self.describe(command)})"

    def format_commands(self, replies: Sequence[str] = (), first: int = 0, most: int = 0, last: str = "") -> str:
        """Returns a table of the commands from number `first` on: each with its reply, if any, and its description.

        `last`, if any, describes a call behind them, for which there is no command. If there are more than `most` rows,
        and that is not 0, those in the middle are left out.
        """
        rows = []
        for number, line in enumerate(self.commands[first:], first):
            rows += [("", "", note) for note in self._notes.get(number, ())]
            rows.append((line, replies[number] if replies else "", self.describe(number)))
        if last:
            rows += [("", "", it) for it in (*self._notes.get(len(self.commands), ()), last)]
        if most and len(rows) > most:
            left_out = len(rows) - most
            rows[most // 2 : -(most // 2)] = [("..", "", f"{left_out} lines are left out here, and not in the file")]
        widths = [max((len(row[column]) for row in rows), default=0) for column in (0, 1)]
        padded = ((line.ljust(widths[0]), reply.ljust(widths[1]), description) for line, reply, description in rows)
        return "\n".join("    " + "  ".join(it for it in row if it) for row in padded)

    def explain(self, text: str, reply: str, program: Optional[str]) -> Optional[Dict[str, Any]]:
        """Returns the program's explanation of a violation, or `None` if there is none."""
        return programs.explain_violation(program, text) if reply.startswith("no ") else None

    def summarize(self, reply: str, explanation: Optional[Dict[str, Any]]) -> str:
        """Describes the last command of the text and its reply.

        A violation is followed by the expected result, whether another order explains it, and the changes of deliveries
        that would explain it, if there is an explanation.
        """
        operation = self.describe(len(self.commands) - 1)
        is_list = explanation is None or explanation.get("one_list", True)
        hint = f"\n{OTHER_CLOCKS}" if self._translator.kind == "rga" and reply.startswith("no ") and is_list else ""
        return f"{operation}: {self.describe_reply(reply)}{self._format_explanation(explanation)}{hint}"

    def expected_read(self, explanation: Optional[Dict[str, Any]]) -> Optional[Tuple[Any]]:
        """Returns the expected result of the last command, as a tuple with it alone, or `None` if it is unknown."""
        line = None if explanation is None else explanation["right"]
        words = line.split(" ") if line else []
        return (self._translator.result_of(words[2]),) if words[1:2] == ["read"] else None

    def _format_explanation(self, explanation: Optional[Dict[str, Any]]) -> str:
        if explanation is None:
            return ""
        expected, changes, tried = (explanation[key] for key in ("right", "would_be_right", "tried"))
        rows = []
        if expected is not None:
            rows.append(f"expected: {self._translator.describe(expected, self._describe_label)}")
        if "another_order" in explanation:
            rows.append(OTHER_ORDERS[explanation["another_order"]])
        rows += [f"explained if {self._describe_change(it)}" for it in changes[:SHOWN_CHANGES]]
        if tried and not changes:
            rows.append(_none_helps(tried))
        return "".join(f"\n{row}" for row in rows)

    def _describe_change(self, change: Dict[str, int]) -> str:
        if "gets" in change:
            return f"{self._describe_label(change['gets'])} had been delivered before"
        (kind, line), = change.items()
        command = self.describe(line - HEADER_LINES - 1)
        if kind == "misses_line":
            return f"this had not been delivered: {command}"
        return f"it had come before this: {command}"

    def describe_reply(self, reply: str) -> str:
        """Returns what a reply to the last command means."""
        if reply.startswith(NOT_CAUSAL):
            missing = self._describe_label(int(reply[len(NOT_CAUSAL) :]))
            return f"refused, {missing} has to be delivered first"
        causes = [it for it in reply.split(" ") if it in MEANINGS]
        verdict = "not RA-linearizable" if reply.startswith("no ") else "refused"
        if self._translator.kind == "orset" and " remove " in self.commands[-1] and causes == ["query"]:
            return f"{verdict}, {self._describe_identifiers()}"
        if self._translator.kind == "any" and causes == ["query"]:
            return f"{verdict}, {OWN_MEANINGS['any']['query']}{self._describe_equal_read()}"
        meanings = {**MEANINGS, **OWN_MEANINGS.get(self._translator.kind, {})}
        return f"{verdict}, {meanings[causes[0]]}" if causes else reply

    def _describe_equal_read(self) -> str:
        """Describes the read that the last command, a read, is compared with."""
        found = first_equal_read(self.commands)
        return "" if found is None else f": {self.describe(found)}"

    def _describe_identifiers(self) -> str:
        """Compares the identifiers that the last command, a removal, names with those that its replica has."""
        name, _, element, field = self.commands[-1].split(" ")
        named = {int(it) for it in field[1:].split(",") if it not in ("", "-")}
        observed = observed_identifiers(self.commands[:-1], name, int(element))
        describe = self._translator.describe_identifiers
        if named - observed:
            meaning = "a delivery was not reported, or the removal names what its replica never had"
        else:
            meaning = (
                "the replica lost an addition that was delivered, or the removal names too few; if an addition "
                "replaces older ones, leave the identifiers out"
            )
        return (
            f"it names the identifiers {describe(sorted(named))}, and by the reports its replica had "
            f"{describe(sorted(observed))}: {meaning}"
        )


def create_error(
    report: FailureReport, text: str, reply: str, path: Optional[str], program: Optional[str]
) -> Exception:
    """Creates the exception for a history whose last command had this reply, and saves the history."""
    last = len(report.commands) - 1
    if reply.split(" ")[0] not in ("no", "refused"):
        return MonitorExited(
            f"the program is not a monitor: it replied {reply!r} to {report.commands[last]!r}; "
            "set RA_MONITOR to the path of ra_monitor"
        )
    saved = save_history(text, path)
    operation = report.describe(last)
    shown = report.format_commands(first=max(0, last + 1 - SHOWN_LINES))
    message = (
        f"{report.summarize(reply, report.explain(text, reply, program))}\n"
        f"line {last + HEADER_LINES + 1} of {saved}, reply {reply!r}; the last lines:\n{shown}"
    )
    return (NotLinearizable if reply.startswith("no ") else Refused)(message, operation, reply, saved)


def save_history(text: str, path: Optional[str]) -> str:
    """Writes the history to this file, or to a new temporary file, and returns the path."""
    if path is None:
        number, path = tempfile.mkstemp(prefix="yehatu_", suffix=".rah")
        os.close(number)
    with open(path, "w", encoding="ascii", newline="\n") as file:
        file.write(text)
    return path


def _none_helps(tried: int) -> str:
    """That none of the changes that `explain` tried explains the operation, in its words."""
    if tried == 1:
        return "the one change that was tried does not explain it"
    return f"none of the {tried} changes that were tried explains it"
