"""The tests of `cited`: a small project that passes, and each fault that it must name."""
import importlib.machinery
import importlib.util
import os
import sys
import tempfile
import unittest

sys.dont_write_bytecode = True
here = os.path.dirname(os.path.abspath(__file__))
loader = importlib.machinery.SourceFileLoader("cited", os.path.join(here, "cited"))
cited = importlib.util.module_from_spec(importlib.util.spec_from_loader("cited", loader))
loader.exec_module(cited)

PAGE = """# Promises

## The call

All theorems in `crates/a/proofs/Demands.antt`, unless another file is named.

| rule | sentence | shown by |
|---|---|---|
| 1.1, 1.2 | It counts | `Counts`, `crates/a/specs/Call.antt`; T `counted`; T `paired`, `crates/a/proofs/Pairs.antt`; C `count`, `crates/a/src/lib.rt` |
| 2.1 | A wrong one | `crates/a/must-fail/wrong.edit`, as `crates/NAME/must-fail/LABEL.edit` |

## Another

| sentence | shown by |
|---|---|
| It counts too | T `counted`, a; T `counted` of each call |
"""

FILES = {
    "docs/PROMISES.md": PAGE,
    "docs/RULES.md": "# Rules\n\n- **1.1** It counts.\n- **1.2** To one, by rule 1.1.\n\n## 2. Wrong\n\n- **2.1** None.\n",
    "docs/USING.md": "See rules 1.1 to 2.1, and 7.7 is a number.\n",
    "docs/GUIDE.md": "The table.\n",
    "README.md": "Shown by `paired`, `crates/a/proofs/Pairs.antt`.\n",
    "crates/a/specs/Call.antt": "-- rule 1.1\npub record Counts (n : ℕ) : Type 0 where\n  pub is : n ≡ 1\n",
    "crates/a/src/lib.rt": "ghost use Rattle.std.proofs.Math.Seq.{slice};\nghost use Rattle.a.specs.Call.{Counts};\npub fn count()\n    ensures { Counts 1 }\n{\n}\n",
    "crates/a/must-fail/wrong.edit": "file: src/lib.rt\n",
    "crates/a/proofs/Laws.antt": "abbrev pub Helper : ℕ → Type 0\nHelper n = Counts n\n",
    "crates/a/proofs/Demands.antt": (
        "use Rattle.a.specs.Call.{Counts}\nuse Rattle.a.proofs.Laws.{Helper, law}\nuse Rattle.a.proofs.Laws as laws\n\n"
        "-- Own is a name in a comment\nabbrev Own : ℕ → Type 0\nOwn n = Counts n\n\n"
        "module _ (n : ℕ) where\n  pub counted : (Helper : ℕ) → Counts n\n  counted h = law n\n"
    ),
    "crates/a/proofs/Pairs.antt": "use Rattle.a.specs.Call.{Counts}\n\npub paired : (n : ℕ)\n    → Counts n\npaired n = refl\n",
}


def faults(changes=()):
    """The faults of the small project with some texts replaced."""
    with tempfile.TemporaryDirectory() as root:
        files = dict(FILES)
        for path, old, new in changes:
            if old not in files[path]:
                raise ValueError(f"{path} has no {old!r}")
            files[path] = files[path].replace(old, new)
        for path, text in files.items():
            os.makedirs(os.path.dirname(os.path.join(root, path)), exist_ok=True)
            with open(os.path.join(root, path), "w", encoding="utf-8") as file:
                file.write(text)
        check = cited.Check(root)
        for page in cited.PAGES:
            check.page(page)
        check.specs()
        check.rules()
        return check.faults


class Cited(unittest.TestCase):
    def names(self, words, *changes):
        found = faults(changes)
        self.assertTrue(found and all(words in line for line in found), found)

    def test_passes(self):
        self.assertEqual(faults(), [])

    def test_local_definition(self):
        self.names("counted of crates/a/proofs/Demands.antt: `Own` is defined in this file", ("crates/a/proofs/Demands.antt", "→ Counts n\n  counted", "→ Own n\n  counted"))

    def test_brought_definition(self):
        self.names("`Helper` is defined in Rattle.a.proofs.Laws", ("crates/a/proofs/Demands.antt", "(Helper : ℕ) → Counts n", "Helper n"))

    def test_behind_a_module(self):
        self.names("`Helper` is defined in Rattle.a.proofs.Laws", ("crates/a/proofs/Demands.antt", "(Helper : ℕ) → Counts n", "laws.Helper n"))

    def test_before_a_field(self):
        self.names("`Helper` is defined in Rattle.a.proofs.Laws", ("crates/a/proofs/Demands.antt", "(Helper : ℕ) → Counts n", "Counts Helper.is"))

    def test_in_the_parameters(self):
        self.names("`Own` is defined in this file", ("crates/a/proofs/Demands.antt", "module _ (n : ℕ)", "module _ (n : ℕ) (o : Own n)"))

    def test_on_a_later_line(self):
        self.names("paired of crates/a/proofs/Pairs.antt: `Mine` is defined in this file", ("crates/a/proofs/Pairs.antt", "    → Counts n", "    → Mine n"), ("crates/a/proofs/Pairs.antt", "pub paired :", "abbrev Mine : ℕ → Type 0\nMine n = Counts n\n\npub paired :"))

    def test_no_such_theorem(self):
        self.names("docs/PROMISES.md:9: counter: there is no such theorem", ("docs/PROMISES.md", "T `counted`; T", "T `counter`; T"))

    def test_no_such_definition(self):
        self.names("docs/PROMISES.md:9: Counting: is not in crates/a/specs/Call.antt", ("docs/PROMISES.md", "`Counts`", "`Counting`"))

    def test_no_such_file(self):
        self.names("docs/PROMISES.md:10: crates/a/must-fail/other.edit: there is no such file", ("docs/PROMISES.md", "wrong.edit", "other.edit"))

    def test_specs_on_proofs(self):
        self.names("crates/a/specs/Call.antt: `Helper` is defined in Rattle.a.proofs.Laws", ("crates/a/specs/Call.antt", "pub record", "use Rattle.a.proofs.Laws.{Helper}\npub record"))

    def test_contract_on_proofs(self):
        self.names("crates/a/src/lib.rt: `Helper` is defined in Rattle.a.proofs.Laws", ("crates/a/src/lib.rt", "pub fn", "ghost use Rattle.a.proofs.Laws.{Helper};\npub fn"))

    def test_contract_on_proofs_in_lines(self):
        self.names("crates/a/src/lib.rt: `Helper, law` is defined in Rattle.a.proofs.Laws", ("crates/a/src/lib.rt", "pub fn", "ghost use Rattle.a.proofs.Laws.{\n    Helper, law\n};\npub fn"))

    def test_contract_on_a_proof_module(self):
        self.names("crates/a/src/lib.rt: `laws` is defined in Rattle.a.proofs.Laws", ("crates/a/src/lib.rt", "pub fn", "ghost use Rattle.a.proofs.Laws as laws;\npub fn"))

    def test_rule_in_a_page(self):
        self.names("docs/USING.md:1: rule 2.2: there is no such rule", ("docs/USING.md", "to 2.1", "and 2.2"))

    def test_rule_in_a_comment(self):
        self.names("crates/a/specs/Call.antt:1: rule 1.3: there is no such rule", ("crates/a/specs/Call.antt", "rule 1.1", "rule 1.3"))

    def test_rule_in_a_row(self):
        self.names("docs/PROMISES.md:10: rule 3.1: there is no such rule", ("docs/PROMISES.md", "| 2.1 |", "| 2.1, 3.1 |"))

    def test_rule_not_shown(self):
        self.names("docs/RULES.md: 1.2: docs/PROMISES.md does not say what shows it", ("docs/PROMISES.md", "1.1, 1.2", "1.1"))

    def test_rule_out_of_order(self):
        self.names("docs/RULES.md:8: 2.2: does not follow the rule before", ("docs/RULES.md", "**2.1**", "**2.2**"), ("docs/PROMISES.md", "| 2.1 |", "| 2.2 |"), ("docs/USING.md", "to 2.1", "to 1.2"))


if __name__ == "__main__":
    unittest.main()
