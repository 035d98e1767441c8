"""The strategies and the state machine for Hypothesis."""
import importlib.util
import unittest
from typing import Any

from network_replicas import PLANTED, RIGHT, MergedCounter
from list_replicas import Fugue
from replicas import CORRECT
from yehatu import NotLinearizable, ReportFailed
from yehatu.profile import Profile

HAS_HYPOTHESIS = importlib.util.find_spec("hypothesis") is not None
EXAMPLES = 8


def run_plans(make: Any, kind: str, profile: Profile = Profile(), examples: int = EXAMPLES, **options: Any) -> None:
    """Runs plans that Hypothesis chooses, always the same ones."""
    from hypothesis import HealthCheck, given, settings
    from yehatu.hypothesis import plans, run_plan

    checks = [HealthCheck.too_slow]
    chosen = settings(
        max_examples=examples, deadline=None, database=None, derandomize=True, suppress_health_check=checks
    )

    @chosen
    @given(plan=plans(kind, 3, profile, **options))
    def run(plan: Any) -> None:
        run_plan(make, plan)

    run()


@unittest.skipUnless(HAS_HYPOTHESIS, "hypothesis is not installed: apt-get install python3-hypothesis")
class Hypothesis(unittest.TestCase):
    def test_plans_of_correct_replicas_pass(self) -> None:
        for kind, make in [*CORRECT.items(), ("list", Fugue)]:
            with self.subTest(kind=kind):
                run_plans(make, kind)
        case = RIGHT["orset in any order"]
        run_plans(case.make, case.kind, Profile("any", duplicates=True, restarts=True))
        run_plans(MergedCounter, "counter", Profile(late_states=True), merges=True)

    def test_plans_find_a_bug(self) -> None:
        with self.assertRaises(NotLinearizable) as caught:
            run_plans(PLANTED["counts_duplicates"].make, "counter", Profile(duplicates=True), 60)
        self.assertIn("arrived twice", str(caught.exception))

    def test_a_state_machine_runs_correct_replicas_and_finds_a_bug(self) -> None:
        from hypothesis import HealthCheck, settings
        from hypothesis.stateful import run_state_machine_as_test
        from yehatu.hypothesis import state_machine

        chosen = settings(
            max_examples=EXAMPLES, stateful_step_count=12, deadline=None, database=None, derandomize=True,
            suppress_health_check=[HealthCheck.too_slow],
        )
        case = RIGHT["counter in any order"]
        run_state_machine_as_test(state_machine(case.make, case.kind, 2, **case.options), settings=chosen)
        bug = PLANTED["counts_duplicates"]
        with self.assertRaises(ReportFailed):
            run_state_machine_as_test(
                state_machine(bug.make, bug.kind, 2, **bug.options), settings=settings(chosen, max_examples=60)
            )


if __name__ == "__main__":
    unittest.main()
