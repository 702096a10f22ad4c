"""Tests of how programs are run, compared and measured."""
import argparse
import hashlib
import os
import tempfile
import unittest

from tools import comparing, measuring, running

EXPLANATION = b"U,1,u1,W1,276,P,100\nN,1,\nP,1,A,60,60,0,1,60\nP,0,,40,40,0,2,40\n"
REFUSED = 1, b"", b"usage fault 5 at row 3\n"
PATHS = ["f/tis", "f/cwr", "f/usage"]
NAMED = dict(zip(running.NAMES, [*PATHS, "f/payees"]))


class Running(unittest.TestCase):
    def test_options_name_the_files_and_leave_payees_out(self):
        options = running.run_options(PATHS, (4, 2, 64))
        self.assertEqual(running.words_of("p", "run", options), [
            "p", "run", "--tis", "f/tis", "--cwr", "f/cwr", "--usage", "f/usage",
            "--workers", "4", "--readers", "2", "--nodes", "64"])
        self.assertIn("payees", dict(running.run_options([*PATHS, "f/payees"], (1, 1, 1))))

    def test_a_run_has_its_status_output_and_message_without_the_name(self):
        done = running.run(["sh", "-c", "printf out; printf 'name: a: b' >&2; exit 3"])
        self.assertEqual(done, (3, b"out", b"a: b"))

    def test_a_run_that_goes_on_is_ended(self):
        done = running.run(["sleep", "9"], 0.05)
        self.assertEqual(done, ("no end in 0.05 s", b"", b""))

    def test_a_program_is_named_by_any_path_and_has_to_be_one(self):
        with tempfile.TemporaryDirectory() as folder:
            path = os.path.join(folder, "a program")
            running.written(folder, {"a program": b"#!/bin/sh\n"})
            with self.assertRaises(argparse.ArgumentTypeError):
                running.program_at(path)
            os.chmod(path, 0o755)
            self.assertEqual(running.program_at(os.path.relpath(path)), path)
            with self.assertRaises(argparse.ArgumentTypeError):
                running.program_at(folder)

    def test_files_are_written_in_their_order(self):
        with tempfile.TemporaryDirectory() as folder:
            paths = running.written(os.path.join(folder, "new"), {"b": b"1", "a": b"2"})
            self.assertEqual([os.path.basename(it) for it in paths], ["b", "a"])
            with open(paths[1], "rb") as file:
                self.assertEqual(file.read(), b"2")

    def test_an_answer_in_a_file_is_as_if_it_had_been_printed(self):
        scripts = {
            'cat "$4" "$5" > "$3"': (0, b"12", b""),
            'echo "p: no" >&2; exit 1': (1, b"", b"no\n"),
            "printf 12": (0, b"printed b'12', and into the file None", b""),
            'printf 1; cat "$4" > "$3"': (0, b"printed b'1', and into the file b'1'", b""),
            'cat "$4" > "$3"; exit 4': (4, b"printed b'', and into the file b'1'", b""),
        }
        for script, answer in scripts.items():
            with tempfile.TemporaryDirectory() as folder:
                program, = running.written(folder, {"program": f"#!/bin/sh\n{script}\n".encode()})
                os.chmod(program, 0o755)
                files = {"b": b"1", "a": b"2"}
                self.assertEqual(running.answer_into_file(program, "add", folder, files), answer)
                self.assertEqual(os.path.exists(os.path.join(folder, "output")), False)

    def test_an_answer_is_over_files_in_their_order(self):
        with tempfile.TemporaryDirectory() as folder:
            program, = running.written(folder, {"program": b'#!/bin/sh\ncat "$2" "$3"\n'})
            os.chmod(program, 0o755)
            answer = running.answer_over(program, "add", folder, {"b": b"1", "a": b"2"})
            self.assertEqual(answer, (0, b"12", b""))


class Measuring(unittest.TestCase):
    def test_a_cost_is_read_with_memory_in_megabytes(self):
        cost = measuring.cost_in("0.51 1.25 20480 -9\n")
        self.assertEqual(cost, (0.51, 1.25, 20.0, -9))
        self.assertEqual((cost.wall, cost.processor, cost.memory, cost.status), cost)

    def test_a_run_is_measured_and_what_it_wrote_is_kept(self):
        with tempfile.TemporaryDirectory() as folder:
            words = ["sh", "-c", "sleep 0.1; echo out; echo err >&2; exit 4"]
            cost = measuring.run_measured(words, folder)
            self.assertEqual(cost.status, 4)
            self.assertTrue(0.1 <= cost.wall < 5 and cost.processor < cost.wall)
            self.assertTrue(0.5 < cost.memory < 200)
            for name in ("out", "err"):
                with open(os.path.join(folder, name), encoding="ascii") as file:
                    self.assertEqual(file.read(), name + "\n")
            digest = hashlib.sha256(b"out\n").hexdigest()
            self.assertEqual(measuring.digest_of(os.path.join(folder, "out")), digest)


class Comparing(unittest.TestCase):
    def test_the_first_line_that_differs_is_named(self):
        ours, theirs = (0, b"a\nb\nc", b""), (1, b"a\nx\nc", b"m")
        self.assertEqual(comparing.first_difference(ours, theirs),
                         "0 b'' b'b' and 1 b'm' b'x' in line 2")

    def test_where_one_text_goes_on_the_line_behind_the_other_is_named(self):
        self.assertIn("b'' and 0 b'' b'b' in line 2",
                      comparing.first_difference((0, b"a", b""), (0, b"a\nb", b"")))

    def test_a_report_fits_the_fault_that_a_run_is_refused_for(self):
        def report(text):
            return 1, text, b""

        fits = b"f/usage: row 3: the amount is no number (fault 5)\nmore (fault 1)\n"
        self.assertFalse(comparing.contradicts(report(fits), NAMED, REFUSED))
        for wrong in (fits.replace(b"row 3", b"row 4"), fits.replace(b"fault 5", b"fault 4"),
                      fits.replace(b"f/usage", b"f/tis"), b"f/usage: usage lines: 3\n" + fits):
            self.assertTrue(comparing.contradicts(report(wrong), NAMED, REFUSED), wrong)
        self.assertTrue(comparing.contradicts((0, fits, b""), NAMED, REFUSED))

    def test_a_fault_of_payees_is_one_of_their_file(self):
        refusal = 1, b"", b"payee fault 2 at row 1\n"
        report = 1, b"f/payees: row 1: the party is blank (fault 2)\n", b""
        self.assertFalse(comparing.contradicts(report, NAMED, refusal))
        report = 1, report[1].replace(b"f/payees", b"f/tis"), b""
        self.assertTrue(comparing.contradicts(report, NAMED, refusal))

    def test_a_refusal_without_a_fault_fits_no_report(self):
        self.assertTrue(comparing.contradicts((1, b"", b""), NAMED, (1, b"", b"")))

    def test_a_fault_of_a_whole_file_has_no_place(self):
        for name, number, text in ((b"tis", b"5", b"f/tis: there are more rows (fault 5)"),
                                   (b"cwr", b"8", b"f/cwr: the parties are too many (fault 8)")):
            refusal = 1, b"", name + b" fault " + number + b"\n"
            self.assertFalse(comparing.contradicts((1, text, b""), NAMED, refusal))

    def test_a_run_with_statements_has_a_report_without_faults(self):
        run = 0, b"T,,0,0\n", b""
        self.assertFalse(comparing.contradicts((0, b"f: territories: 1\n", b""), NAMED, run))
        self.assertTrue(comparing.contradicts((1, b"f: row 1: x (fault 2)\n", b""), NAMED, run))
        self.assertTrue(comparing.contradicts((0, b"f: row 1: x (fault 2)\n", b""), NAMED, run))

    def test_a_run_without_a_file_has_a_report_with_its_message(self):
        run = 4, b"", b"cannot read f/tis\n"
        self.assertFalse(comparing.contradicts((4, b"", b"cannot read f/tis\n"), NAMED, run))
        self.assertTrue(comparing.contradicts((4, b"", b"cannot read f/cwr\n"), NAMED, run))

    def test_of_several_submitters_a_refusal_has_the_path_of_the_file(self):
        paths = {"tis": "f/tis", "works": "f/works", "usage": "f/usage", "cwr": "B=f/1.cwr"}
        for refusal, text, fits in (
                (b"cwr fault 2 at line 7 of f/0.cwr\n", b"f/0.cwr: line 7: x (fault 2)\n", True),
                (b"cwr fault 2 at line 7 of f/0.cwr\n", b"f/1.cwr: line 7: x (fault 2)\n", False),
                (b"works fault 7 at row 3\n", b"f/works: row 3: x (fault 7)\n", True),
                (b"works fault 8\n", b"f/works: the parties of all (fault 8)\n", True),
                (b"works fault 6\n", b"f/works: there are more (fault 6)\n", True),
                (b"works fault 6\n", b"f/works: row 3: x (fault 6)\n", False)):
            answer = comparing.contradicts((1, text, b""), paths, (1, b"", refusal))
            self.assertEqual(answer, not fits, text)
        # A run comes to a fault before it comes to a file that cannot be read.
        refusal, unread = (1, b"", b"tis fault 1 at row 0\n"), (4, b"", b"cannot read f/1.cwr\n")
        self.assertFalse(comparing.contradicts(unread, paths, refusal))
        self.assertTrue(comparing.contradicts(unread, NAMED, refusal))

    def test_portions_without_a_row_of_the_statements_are_missing(self):
        rows = [["L", "A", "u1", "60"], ["M", "OPEN", "u1", "40"]]
        self.assertEqual(comparing.missing(rows, EXPLANATION), [])
        self.assertEqual(comparing.missing(rows[:1], EXPLANATION), [(None, "40")])
        self.assertEqual(comparing.missing(rows[1:], EXPLANATION), [("A", "60")])
        nothing = EXPLANATION.replace(b"N,1,\n", b"N,1,OVER\n")
        self.assertEqual(comparing.missing(rows, nothing), [(None, "40")])
        over = EXPLANATION.replace(b"N,1,\n", b"R,OVER\nW,A,W1,1\n")
        self.assertEqual(comparing.missing([*rows, ["M", "OVER", "u1", "40"]], over), [])


if __name__ == "__main__":
    unittest.main()
