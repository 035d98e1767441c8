"""The tests of the two clients by name, and which of them only one of the two has.

A test is named by its file and its own name: test_F.py of clients/python goes with F.test.js of clients/javascript,
and within them `def test_NAME` with `test("name", ..)`. A name of JavaScript is normalized by one rule: lower-case
letters, no apostrophes, and one underscore for each run of characters that are neither letters nor digits. So "the
bounds of a counter's read" goes with `test_the_bounds_of_a_counters_read`. Python's classes, and cases within a test
(`subTest`, `t.test`), are ignored.
"""
import ast
import re
from pathlib import Path

CLIENTS = Path(__file__).resolve().parents[2] / "clients"

# Tests that one language alone can have, each with the reason.
PYTHON_ALONE = {
    ("recorder", "a_value_that_is_not_hashable_is_rejected"): "in JavaScript anything can be the key of a Map",
    ("recorder", "an_exception_in_the_block_is_raised_unchanged"): "JavaScript has no `with` that closes a recorder",
    ("hypothesis", "plans_of_correct_replicas_pass"): "Hypothesis is for Python",
    ("hypothesis", "plans_find_a_bug"): "Hypothesis is for Python",
    ("hypothesis", "a_state_machine_runs_correct_replicas_and_finds_a_bug"): "Hypothesis is for Python",
    ("pytest_plugin", "the_options_change_the_numbers_of_runs_and_operations"): "pytest is for Python",
    ("pytest_plugin", "the_files_of_a_failure_are_kept"): "pytest is for Python",
    ("operations", "an_act_that_returns_a_coroutine_is_rejected"): "JavaScript awaits what an act returns",
}
# The tests of clients/javascript/yjs.
YJS_TESTS = (
    "all_random_runs_of_yjs_pass",
    "a_lost_update_is_found",
    "a_lost_deletion_is_found_which_yjs_does_not_miss",
    "a_stale_read_is_found",
    "a_stale_array_is_found",
    "a_character_that_changes_on_its_way_is_found",
    "two_items_in_another_order_are_found",
    "what_an_editor_shows_is_compared_with_its_text",
    "changes_that_arrive_before_those_that_they_follow_are_reported_later",
    "a_transaction_that_arrives_in_part_is_reported_when_all_of_it_has_arrived",
    "a_transaction_of_an_observer_is_reported_before_the_next_read",
    "a_document_that_lacks_changes_at_the_end_needs_an_option",
    "what_is_not_checked_is_named_and_nothing_but_that_is_rejected",
    "a_map_is_one_value_and_what_is_in_it_is_watched_by_itself",
    "a_lost_update_of_a_map_is_found",
    "an_editor_that_shows_another_map_is_found",
    "a_stale_map_is_found",
    "a_deletion_in_a_map_that_gets_lost_is_found",
    "each_xml_type_is_a_value_and_what_is_in_it_is_watched_by_itself",
    "a_lost_update_of_each_xml_type_is_found",
    "a_stale_read_of_each_xml_type_is_found",
    "an_editor_that_shows_another_xml_node_is_found",
    "an_insertion_and_an_attribute_in_one_transaction_are_both_reported",
    "the_formatting_of_a_text_is_a_value_from_the_first_format_on",
    "a_lost_format_and_a_stale_one_are_found",
    "a_watcher_that_is_left_open_fails_the_process",
    "content_of_documents_that_are_not_watched_is_rejected",
    "recorded_lists_are_those_of_the_example",
)
JAVASCRIPT_ALONE = {
    **{("yjs", it): "Yjs is a library of JavaScript" for it in YJS_TESTS},
    ("recorder", "an_asynchronous_act_is_one_step_with_its_report"): "Python's acts are not awaited",
    ("limits", "a_clock_that_no_number_represents_exactly_is_a_bigint"): "Python has whole numbers of any size",
}

# A call that makes a test; one whose name can be read, which is one plain text; and what a file may import from Node.
ANY_CALL = re.compile(r"(?<![.\w])test(?:\.\w+)*\(")
NAMED_CALL = re.compile(r'test(?:\.(?:skip|todo))?\(\s*"([^"\\]+)"')
IMPORTS = re.compile(r'^import \{([^}]*)\} from "node:test"', re.MULTILINE)
MAY_IMPORT = {"after", "test"}
READABLE = {
    "python": "the file has a syntax error",
    "javascript": 'each is a `test("NAME", ..)` at the beginning of a line, and `test` is imported from "node:test"',
}


def normalized(name):
    """The name by the rule above."""
    return re.sub(r"[^a-z0-9]+", "_", re.sub("['’]", "", name.lower())).strip("_")


def python_tests(clients=CLIENTS):
    """The tests of Python, as pairs of a file and a name, in their order. Of a file that cannot be read the name is
    None."""
    for path in sorted((clients / "python" / "tests").glob("test_*.py")):
        file = path.name[len("test_") : -len(".py")]
        try:
            classes = [it for it in ast.walk(ast.parse(path.read_text(), str(path))) if isinstance(it, ast.ClassDef)]
        except SyntaxError:
            yield file, None
            continue
        names = (it.name for each in classes for it in each.body if isinstance(it, ast.FunctionDef))
        yield from ((file, name[len("test_") :]) for name in names if name.startswith("test_"))


def javascript_tests(clients=CLIENTS):
    """The same of JavaScript. A test whose name cannot be read has the name None."""
    for path in sorted((clients / "javascript" / "test").glob("*.test.js")):
        file, text = path.name[: -len(".test.js")], path.read_text()
        imported = {it.strip() for names in IMPORTS.findall(text) for it in names.split(",")}
        if not {"test"} <= imported <= MAY_IMPORT:
            yield file, None
        for call in ANY_CALL.finditer(text):
            named = NAMED_CALL.match(text, call.start())
            is_first = text[call.start() - 1] == "\n"
            yield file, normalized(named[1]) if named and is_first else None


def faults_of(client, tests):
    """What is wrong with the names of one client's tests: no tests, an unreadable name, or a duplicate."""
    if not tests:
        yield f"clients/{client} has no tests"
    for file in sorted({file for file, name in tests if name is None}):
        yield f"clients/{client}, {file}: not every test has a name that can be read ({READABLE[client]})"
    for file, name in sorted({it for it in tests if it[1] is not None and tests.count(it) > 1}):
        yield f"clients/{client}, {file}: there is more than one test {name}"


def differences(python, javascript):
    """A line for each test that one client lacks, and for each exception that is not needed."""
    sides = [
        ("python", python, "javascript", javascript, PYTHON_ALONE),
        ("javascript", javascript, "python", python, JAVASCRIPT_ALONE),
    ]
    for client, own, other, theirs, alone in sides:
        lacking = {it for it in own if it[1] is not None} - {*theirs}
        for file, name in sorted(lacking - {*alone}):
            yield f"clients/{other}, {file}: lacks the test {name} of clients/{client}"
        for file, name in sorted({*alone} - lacking):
            which = "both clients have" if (file, name) in theirs else f"clients/{client} does not have"
            yield f"{file}: the exception {name} is not needed: {which} this test"


def compared(clients=CLIENTS):
    """How many tests both clients have or one may have alone, and a line for each fault."""
    python, javascript = [*python_tests(clients)], [*javascript_tests(clients)]
    faults = [*faults_of("python", python), *faults_of("javascript", javascript), *differences(python, javascript)]
    allowed = {*PYTHON_ALONE} & {*python} - {*javascript} | {*JAVASCRIPT_ALONE} & {*javascript} - {*python}
    return len({*python} & {*javascript} | allowed), faults
