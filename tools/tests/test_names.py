"""Tests of the names that documents cite, over a small made-up repository."""
import os
import tempfile
import unittest

from tools import names
from tools.declared import Crate, definitions_in, fields_in, name_of_block

CODE = """//! Divides.
ghost use Rattle.std.specs.Prelude.{ℕ, All};
use std::sync::Wait;

/// The most lines: `of` here is no function.
pub const MOST_LINES: u64 = 3;

pub enum Reason {
    Open,
    Over(u64),
}

pub struct Lines<'a> {
    list: &'a [u8],
}

pub type Few<'a> = Lines<'a>;

impl<'a> Lines<'a> {
    pub fn of(list: &'a [u8]) -> Lines<'a>
        ensures whole { result.list ≡ list }
    {
        Lines { list: list.first() }
    }
}

impl<T: Drop> From<Other<T>> for Reason {
    ghost awaits: { True };

    fn from(other: Other<T>) -> Reason {
        Reason::Open
    }
}

/// Divides.
pub fn divide(n: u64) -> u64
    requires few { n ≤ 3 }
    ensures adds_up { result ≡ n }
{
    println!("there are {n} lines left");
    n
}

pub fn other() {}
"""

SPECS = """-- What a division is.
module Halves where
abbrev pub total_of : ℕ → ℕ
total_of n = n

pub record IsDivision (n : ℕ) : Type 0 where
  pub by_halves : total_of n ≡ n

unfoldable pub halves : ℕ → ℕ
"""

PROOFS = """# Promises

## Division (`low`)

| Promise | Definition (`specs/`) | Function, clause | Wrong bodies |
|---|---|---|---|
| It adds up | `Halves`: `total_of`, `IsDivision` | `divide`, `adds_up`; `Lines::of`, `whole` | \
`half_lost`, *`all_lost`* |
| It is halved | `Halves`: `halves` | `divide`, by `by_halves` of `IsDivision` | |

## Printing (`high`)

| Promise | Definition (`specs/`) | Function, clause | Wrong bodies |
|---|---|---|---|
| It prints | `Halves` of `low`: `total_of` | `print`; `divide` of `low`, `few` | \
in `low` *`all_lost`* |
"""

README = """# Made up

`make build` runs `python3 -m tools.build`, and leaves `out/royalty_run`. See `crates/low/specs`,
`specs/Halves.antt`, `low.rt`, `tools/` and `rt check --only low::divide`. `Lines::of` takes `All`,
`low::divide` and `Few::of` too; `Reason::Over` says `there are N lines left`. With `--lines 3`
there are `MOST_LINES`, `1,2`, `u1,W1,276,P,100`, `W1`, `N` and `±`.

```
`nothing in_here is_read`
```
"""

FILES = {
    "crates.txt": "low:\nhigh may_wait=1: low csv\n",
    "Makefile": "build:\n\tpython3 -m tools.build --lines 3\n",
    "README.md": README,
    "docs/PROOFS.md": PROOFS,
    "tools/build.py": "",
    "crates/low/README.md": "# low\n\n`divide` has `adds_up`; `csv` is not used.\n",
    "crates/low/src/low.rt": CODE,
    "crates/low/specs/Halves.antt": SPECS,
    "crates/low/must-fail/half_lost.edit": "",
    "crates/low/more-edits/all_lost.edit": "",
    "crates/high/src/main.rt": "fn print() {}\n",
    "crates/high/README.md": "# high\n\n`print` calls `divide` of `low`.\n",
}


class Repository(unittest.TestCase):
    """The names that are wrong where some files are otherwise."""

    def wrong(self, **changes):
        files = dict(FILES)
        for path, (old, new) in changes.items():
            path = {"proofs": "docs/PROOFS.md", "readme": "README.md",
                    "low": "crates/low/README.md", "code": "crates/low/src/low.rt",
                    "specs": "crates/low/specs/Halves.antt"}[path]
            self.assertIn(old, files[path])
            files[path] = files[path].replace(old, new)
        return self.wrong_in(files)

    def wrong_in(self, files):
        with tempfile.TemporaryDirectory() as root:
            for path, text in files.items():
                os.makedirs(os.path.dirname(os.path.join(root, path)), exist_ok=True)
                with open(os.path.join(root, path), "w", encoding="utf-8") as file:
                    file.write(text)
            return [f"{path}:{number}: {text}" for path, number, text in names.wrong_names(root)]

    def without(self, path):
        return self.wrong_in({it: text for it, text in FILES.items() if it != path})

    def test_a_repository_whose_names_are_all_there_passes(self):
        self.assertEqual(self.wrong(), [])

    def test_a_missing_clause_is_found(self):
        found = self.wrong(code=("ensures adds_up", "ensures sums_up"))
        self.assertTrue(any(it.startswith("docs/PROOFS.md:7: `adds_up`: no function of low, "
                                          "no clause of divide") for it in found), found)
        self.assertIn("crates/low/README.md:3: `adds_up`: nothing declares it", found)

    def test_a_clause_of_another_function_is_found(self):
        found = self.wrong(proofs=("`divide`, `adds_up`;", "`divide`, `whole`;"))
        self.assertEqual(found, ["docs/PROOFS.md:7: `whole`: no function of low, "
                                 "no clause of divide"])

    def test_a_missing_function_is_found(self):
        found = self.wrong(code=("pub fn divide", "pub fn share"))
        for place in ("README.md:4", "docs/PROOFS.md:7", "crates/low/README.md:3",
                      "crates/high/README.md:3"):
            self.assertTrue(any(it.startswith(place) and "divide" in it for it in found), place)

    def test_a_function_of_a_crate_that_is_not_named_is_found(self):
        found = self.wrong(proofs=("`divide` of `low`, `few`", "`divide`, `few`"))
        self.assertEqual(found, ["docs/PROOFS.md:14: `divide`: no function of high, "
                                 "no clause of print",
                                 "docs/PROOFS.md:14: `few`: no function of high, "
                                 "no clause of print"])

    def test_a_missing_wrong_body_is_found(self):
        self.assertIn("docs/PROOFS.md:7: `half_lost`: no must-fail/half_lost.edit in low",
                      self.without("crates/low/must-fail/half_lost.edit"))

    def test_a_wrong_body_of_the_other_folder_is_found(self):
        found = self.wrong(proofs=("`half_lost`, *`all_lost`*", "*`half_lost`*, `all_lost`"))
        self.assertEqual(found, ["docs/PROOFS.md:7: `all_lost`: no must-fail/all_lost.edit in low",
                                 "docs/PROOFS.md:7: `half_lost`: no more-edits/half_lost.edit in "
                                 "low"])

    def test_a_missing_definition_or_module_or_field_is_found(self):
        found = self.wrong(specs=("halves : ℕ", "doubles : ℕ"))
        self.assertIn("docs/PROOFS.md:8: `halves`: no definition of low in Halves", found)
        found = self.wrong(specs=("by_halves", "by_thirds"))
        self.assertTrue(any("`by_halves`: no function of low" in it for it in found), found)
        found = self.wrong(proofs=("`Halves`: `halves`", "`Thirds`: `halves`"))
        self.assertIn("docs/PROOFS.md:8: `Thirds`: no module of specs/ in low", found)

    def test_a_missing_file_is_found(self):
        self.assertIn("README.md:4: `specs/Halves.antt`: no such file",
                      self.without("crates/low/specs/Halves.antt"))
        self.assertIn("README.md:3: `python3 -m tools.build`: there is no tools/build.py",
                      self.without("tools/build.py"))
        self.assertIn("README.md:4: `gone.rt`: no such file",
                      self.wrong(readme=("`low.rt`", "`gone.rt`")))

    def test_a_missing_target_option_method_variant_and_text_are_found(self):
        for old, new in (("`make build`", "`make test`"), ("`--lines 3`", "`--rows 3`"),
                         ("`Lines::of`", "`Lines::gone`"), ("`Few::of`", "`Many::of`"),
                         ("`Reason::Over`", "`Reason::Under`"), ("N lines left", "N rows left"),
                         ("low::divide`.", "low::share`."), ("`MOST_LINES`", "`MOST_ROWS`")):
            self.assertEqual(len(self.wrong(readme=(old, new))), 1, new)

    def test_a_crate_cites_no_names_of_crates_above_it(self):
        found = self.wrong(low=("`divide`", "`print`"))
        self.assertEqual(found, ["crates/low/README.md:3: `print`: nothing declares it"])

    def test_the_line_is_that_of_the_name_behind_a_block_of_code(self):
        found = self.wrong(readme=("```\n`nothing in_here is_read`\n```\n",
                                   "```\n`nothing`\n\n```\n`gone`\n"))
        self.assertEqual(found, ["README.md:12: `gone`: nothing declares it"])


class Declared(unittest.TestCase):
    def crate(self):
        with tempfile.TemporaryDirectory() as root:
            os.makedirs(os.path.join(root, "crates", "low", "src"))
            with open(os.path.join(root, "crates/low/src/low.rt"), "w", encoding="utf-8") as file:
                file.write(CODE)
            return Crate(root, "low")

    def test_functions_have_their_own_clauses(self):
        found = self.crate().functions
        self.assertEqual(found["divide"], {"few", "adds_up"})
        self.assertEqual(found["Lines::of"], {"whole"})
        self.assertEqual(found["other"], set())
        self.assertEqual(found["Reason"], {"awaits"})
        self.assertIn("Reason::from", found)

    def test_types_have_their_variants_fields_and_other_names(self):
        found = self.crate()
        self.assertLessEqual({"Reason::Open", "Reason::Over", "list", "MOST_LINES", "Lines"},
                             found.names)
        self.assertNotIn("Reason::Lines", found.names)
        self.assertEqual(found.aliases["Few"], "Lines")
        self.assertIn("From", found.traits)

    def test_what_is_taken_from_elsewhere_is_told_apart_by_crate(self):
        found = self.crate().imports
        self.assertEqual(set(found), {"std"})
        self.assertLessEqual({"Wait", "sync", "All", "ℕ"}, found["std"])

    def test_a_block_is_named_for_its_type(self):
        for kind, head, name in (("impl", "<'a> Rows<'a> {", "Rows"),
                                 ("impl", "<T: Drop> From<AllocFailed<T>> for CwrFault {",
                                  "CwrFault"),
                                 ("impl", " fmt::Display for Failure {", "Failure"),
                                 ("trait", " Mail: Sized {", "Mail"),
                                 ("enum", " Took<H> {", "Took")):
            self.assertEqual(name_of_block(kind, head), name)

    def test_definitions_are_what_is_declared_and_not_what_is_used(self):
        lines = SPECS.split("\n")
        self.assertEqual(definitions_in(lines),
                         {"Halves", "total_of", "IsDivision", "by_halves", "halves"})
        self.assertEqual(list(fields_in(lines)), [("IsDivision", "by_halves")])


if __name__ == "__main__":
    unittest.main()
