"""The tests of `sentences`: a small project that passes, and each fault that it must name."""
import importlib.machinery
import importlib.util
import os
import sys
import tempfile
import unittest

sys.dont_write_bytecode = True
here = os.path.dirname(os.path.abspath(__file__))
loader = importlib.machinery.SourceFileLoader("sentences", os.path.join(here, "sentences"))
sentences = importlib.util.module_from_spec(importlib.util.spec_from_loader("sentences", loader))
loader.exec_module(sentences)

FILES = {
    "docs/PROMISES.md": "| It counts | T `counted`, `crates/a/proofs/Demands.antt` |\n",
    "crates/a/specs/Lib.antt": "pub mod Call\n",
    "crates/a/specs/Call.antt": (
        "-- What is counted.\nuse Rattle.std.specs.Prelude.{ℕ}\n\n-- It counts n.\npub record Counts (n : ℕ) : Type 0 where\n  pub records : n ≡ 1\n\n"
        "-- The sum.\ninfixl 65 ◌⊕◌\nabbrev pub ◌⊕◌ : ℕ → ℕ → ℕ\na ⊕ b = a\n\nmodule _ (n : ℕ) where\n  -- One more.\n  unfoldable pub more : ℕ\n  more = n\n"
    ),
    "crates/a/src/lib.rt": '// Counts.\n#[unsafe(no_mangle)]\npub extern "C" fn count()\n    ensures { result ≡ 1 }\n{\n    1\n}\n\nimpl Sum {\n    // The limit.\n    pub const LIMIT: u16 = 4;\n}\n\nfn inner() {}\n',
    "crates/a/proofs/Demands.antt": "-- a lemma\npub law : ℕ\nlaw = 1\n\nmodule _ (n : ℕ) where\n  -- Theorem. It counts,\n  -- and no more.\n  pub counted : ℕ\n  counted = law\n",
}
SPECS, SOURCE, PROOFS = (f"crates/a/{name}" for name in ("specs/Call.antt", "src/lib.rt", "proofs/Demands.antt"))


class Sentences(unittest.TestCase):
    def faults(self, *changes):
        """What is found in the small project with some texts replaced."""
        with tempfile.TemporaryDirectory() as root:
            for path, text in FILES.items():
                for _, old, new in (change for change in changes if change[0] == path):
                    self.assertIn(old, text)
                    text = text.replace(old, new)
                os.makedirs(os.path.dirname(os.path.join(root, path)), exist_ok=True)
                with open(os.path.join(root, path), "w", encoding="utf-8") as file:
                    file.write(text)
            return sentences.check(root)

    def names(self, words, *changes):
        self.assertEqual(self.faults(*changes)[1], [words])

    def test_passes(self):
        self.assertEqual(self.faults(), (5, []))

    def test_definition(self):
        self.names("crates/a/specs/Call.antt:5: Counts: has no sentence", (SPECS, "-- It counts n.", ""))

    def test_heading_is_none(self):
        self.names("crates/a/specs/Call.antt:5: Counts: has no sentence", (SPECS, "-- It counts n.", "-- ---- counting"))

    def test_sign(self):
        self.names("crates/a/specs/Call.antt:10: ◌⊕◌: has no sentence", (SPECS, "-- The sum.", ""))

    def test_in_a_module(self):
        self.names("crates/a/specs/Call.antt:15: more: has no sentence", (SPECS, "  -- One more.", ""))

    def test_function(self):
        self.names("crates/a/src/lib.rt:3: count: has no sentence", (SOURCE, "// Counts.", ""))

    def test_constant(self):
        self.names("crates/a/src/lib.rt:11: LIMIT: has no sentence", (SOURCE, "    // The limit.", ""))

    def test_not_marked(self):
        self.names("crates/a/proofs/Demands.antt:8: counted: is cited and not marked", (PROOFS, "Theorem. It", "It"))

    def test_not_cited(self):
        self.names("crates/a/proofs/Demands.antt:2: law: is marked and not cited", (PROOFS, "-- a lemma", "-- Theorem. A lemma."))


if __name__ == "__main__":
    unittest.main()
