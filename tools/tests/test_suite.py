"""The steps of `make test`: which are run, in which order, and what fails with them."""
import glob
import os
import time
import unittest

from tools.crates import ROOT
from tools.suite import Failed, Step, chosen, run, spoilt, steps_of, tables_of

LISTED = {"low": [], "middle": ["low"], "top": ["middle"], "apart": []}


def failing():
    """A step that fails."""
    raise Failed("three and three are not seven")


class Chosen(unittest.TestCase):
    """Which steps names choose."""

    def setUp(self):
        self.steps = [
            Step("build of top", None, of=("top",)),
            Step("top", None, ("build of top",), ("top",)),
            Step("apart", None, of=("apart",)),
            Step("scripts", None),
        ]

    def names(self, *wanted):
        return [it.name for it in chosen(self.steps, wanted, LISTED)]

    def test_all_without_names(self):
        self.assertEqual(self.names(), ["build of top", "top", "apart", "scripts"])

    def test_what_stands_on_a_crate(self):
        self.assertEqual(self.names("low"), ["build of top", "top"])

    def test_nothing_of_other_crates(self):
        self.assertEqual(self.names("apart"), ["apart"])


class Run(unittest.TestCase):
    """What comes of steps."""

    def ended(self, steps, jobs=2):
        said = []
        return run(steps, jobs, said.append), said

    def test_a_failure_has_its_reason(self):
        failed, said = self.ended([Step("sums", failing), Step("others", lambda: None)])
        self.assertEqual(failed, {"sums"})
        self.assertTrue(any("not seven" in line for line in said))
        self.assertTrue(any(line.startswith("ok") and "others" in line for line in said))

    def test_what_waits_for_a_failure_fails(self):
        failed, _ = self.ended([Step("run", lambda: None, ("build",)), Step("build", failing)])
        self.assertEqual(failed, {"run", "build"})

    def test_a_step_waits_for_those_before_it(self):
        order = []
        late = Step("late", lambda: order.append("late"), ("early",))
        early = Step("early", lambda: (time.sleep(0.05), order.append("early")))
        self.assertEqual(self.ended([late, early], jobs=4)[0], set())
        self.assertEqual(order, ["early", "late"])

    def test_no_more_at_once_than_jobs(self):
        now, most = [], []

        def act():
            now.append(1)
            most.append(len(now))
            time.sleep(0.02)
            now.pop()

        self.ended([Step(str(n), act) for n in range(6)], jobs=2)
        self.assertLessEqual(max(most), 2)

    def test_a_step_that_is_alone_runs_beside_no_other(self):
        now, most = set(), {}

        def acts(name):
            def act():
                now.add(name)
                time.sleep(0.02)
                most[name] = len(now)
                now.remove(name)

            return act

        steps = [Step("first alone", acts("first alone"), alone=True)]
        steps += [Step(name, acts(name)) for name in "abcd"]
        steps += [Step("last alone", acts("last alone"), ("a",), alone=True)]
        self.assertEqual(self.ended(steps, jobs=4)[0], set())
        self.assertEqual((most["first alone"], most["last alone"]), (1, 1))
        self.assertGreater(max(most.values()), 1)

    def test_a_step_that_is_alone_does_not_run_after_a_failure(self):
        steps = [Step("build", failing), Step("tests", lambda: None, ("build",), alone=True)]
        self.assertEqual(self.ended(steps)[0], {"build", "tests"})


class Spoilt(unittest.TestCase):
    """Tables with a wrong answer."""

    def test_the_last_answer_is_another(self):
        self.assertEqual(spoilt("[of]\na => 1\nb => 2\n"), "[of]\na => 1\nb => 2!\n")
        self.assertEqual(spoilt("[of]\na =>\n    1\n\n"), "[of]\na =>\n    1!\n")

    def test_each_driver_of_tables_has_some(self):
        self.assertIn("merges.txt", tables_of("run_rows"))
        self.assertEqual(tables_of("royalty_run"), [])

    def test_each_table_is_asked(self):
        for args in glob.glob(os.path.join(ROOT, "crates", "*", "args")):
            folder = os.path.dirname(args)
            for path in glob.glob(os.path.join(folder, "data", "*.txt")):
                with open(path, encoding="latin-1") as file:
                    has_rows = any(line.startswith("[") for line in file)
                if has_rows:
                    self.assertIn(os.path.basename(path), tables_of(os.path.basename(folder)))


class StepsOf(unittest.TestCase):
    """The steps of the repository."""

    def test_names_are_distinct_and_known(self):
        from tools.crates import crates

        steps = steps_of(crates())
        names = [it.name for it in steps]
        self.assertEqual(len(names), len(set(names)))
        for step in steps:
            self.assertLessEqual(set(step.after), set(names), step.name)

    def test_each_driver_and_each_crate_of_tests_has_its_step(self):
        from tools.crates import crates, has_tests

        listed = crates()
        names = {it.name for it in steps_of(listed)}
        for name in ("table_rows", "run_rows", "program_rows", "queue_replay", "refusal_runs"):
            self.assertIn(name, names)
        for name in listed:
            if has_tests(name):
                self.assertIn(f"tests of {name}", names)


if __name__ == "__main__":
    unittest.main()
