"""Tests that the wrong bodies of the crates can be made of the sources as they stand."""
import glob
import os
import unittest

from tools.crates import ROOT


def pairs_of(path):
    """The texts that a wrong body replaces, each with the file that it stands in and its new text."""
    file, old = None, None
    with open(path, encoding="utf-8") as lines:
        for line in lines.read().split("\n"):
            word, _, text = line.partition(": ")
            if word == "file":
                file = text
            elif word == "old":
                old = text
            elif word == "new":
                yield file, old, text


def faults_of(path, read):
    """What is wrong with a wrong body, whose pairs are applied one after another."""
    texts = {}
    for file, old, new in pairs_of(path):
        text = texts[file] if file in texts else read(file)
        if text.count(old) != 1:
            yield f"{old!r} stands {text.count(old)} times in {file}"
        texts[file] = text.replace(old, new, 1)


class Edits(unittest.TestCase):
    def test_each_text_stands_once_where_it_is_replaced(self):
        paths = glob.glob(f"{ROOT}/crates/*/m*-*/*.edit")
        self.assertGreater(len(paths), 400)
        for path in paths:
            crate = os.path.dirname(os.path.dirname(path))

            def read(file, crate=crate):
                with open(f"{crate}/{file}", encoding="utf-8") as it:
                    return it.read()

            with self.subTest(os.path.relpath(path, ROOT)):
                self.assertEqual(list(faults_of(path, read)), [])

    def test_a_text_that_stands_twice_or_not_at_all_is_told(self):
        path = f"{ROOT}/crates/check_inputs/more-edits/closed_file_called_cut_off.edit"
        self.assertEqual(len(list(faults_of(path, lambda _: ""))), 1)
        self.assertEqual(len(list(faults_of(path, lambda _: "    if !is_closed {" * 2))), 1)
        self.assertEqual(list(faults_of(path, lambda _: "    if !is_closed {")), [])


if __name__ == "__main__":
    unittest.main()
