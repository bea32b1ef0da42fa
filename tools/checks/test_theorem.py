"""What the text of the theorem sees, and what it passes over."""

import re
import unittest

import theorem
import theorem_sources
import theorem_text

TOP = """//! The call.
ghost use Rattle.std.specs.Prelude.{◌≡◌, ℕ};
ghost use Rattle.low.specs.Here.{twice};
use crate::kinds::{Kind as Sort, LIMIT};

/// Doubles.
#[tactic(auto)]
pub fn f(n: u32, kind: Sort) -> u32
    requires { n < 10 }
    ensures doubled { result
        ≡ twice n }
{
    g(n)
}

fn g(n: u32) -> u32
    ensures { result ≡ n }
{
    n
}

impl Sort {
    /// Its status.
    pub fn status(&self) -> u8
        ensures { result ≡ 0 }
    {
        0
    }

    fn own(&self) -> u8 {
        1
    }
}
"""
KINDS = """//! Kinds.
/// How many.
pub const LIMIT: u32 = 3;

#[derive(Clone)]
pub enum Kind {
    One,
}

impl Model for Kind {
    ghost use Rattle.std.specs.Prelude.{ℕ};

    ghost Value = { ℕ };
}
"""
HERE = """-- Numbers. They are small.
use Rattle.std.specs.Prelude.{ℕ, ◌+◌, codes}
use Rattle.low.specs.Words.{half, whole as all}

-- twice a number
abbrev pub twice : ℕ → ℕ
twice n = n + both n

pub title : List ℕ
title = codes "a  b"

-- both parts
abbrev mutual
  pub both : ℕ → ℕ
  both n = half n + all n + other n

  -- the other
  pub other : ℕ → ℕ
  other n = both n
"""
WORDS = """-- Words.
use Rattle.std.specs.Prelude.{ℕ}

pub record Pair : Type 0 where
  -- the half of it
  pub half : ℕ

abbrev pub whole : ℕ → ℕ
whole n = n
"""
SMALL = {"low/src/top.rt": TOP, "low/src/kinds.rt": KINDS, "low/specs/Here.antt": HERE, "low/specs/Words.antt": WORDS}


def small_text(texts):
    files = dict(theorem_sources.file_of(name, text) for name, text in texts.items())
    return theorem_text.body_of(theorem.Theorem(files, [("All", [*theorem.contracts_in(files, "low", "src.top")])]))


class Small(unittest.TestCase):
    def changed(self, name, old, new):
        """The definitions whose text changes with that of a file."""
        self.assertIn(old, SMALL[name])
        texts = {**SMALL, name: SMALL[name].replace(old, new)}
        return {name for name, _ in theorem_text.changes(small_text(SMALL), small_text(texts))}

    def test_all_is_there(self):
        names = theorem_text.pieces_of(small_text(SMALL)).keys()
        self.assertEqual(names, {"f", "impl Sort", "Kind", "twice", "both", "other", "Pair", "whole"})

    def test_a_body_and_a_private_contract_are_passed_over(self):
        self.assertEqual(self.changed("low/src/top.rt", "    g(n)\n", "    g(n + 0)\n"), set())
        self.assertEqual(self.changed("low/src/top.rt", "result ≡ n }", "result ≡ 1 }"), set())
        self.assertEqual(self.changed("low/src/top.rt", "#[tactic(auto)]\n", ""), set())
        self.assertEqual(self.changed("low/specs/Here.antt", "a  b", "a b"), set())

    def test_contracts_are_seen(self):
        self.assertEqual(self.changed("low/src/top.rt", "        ≡ twice n }", "        ≡ n }"),
                         {"f:", "twice:", "both:", "other:", "Pair:", "whole:", "headings, words and places:"})
        self.assertEqual(self.changed("low/src/top.rt", "n < 10 }", "n < 9 }"), {"f:"})
        self.assertEqual(self.changed("low/src/top.rt", "        ensures { result ≡ 0 }\n", ""), {"impl Sort:"})

    def test_types_are_seen(self):
        self.assertEqual(self.changed("low/src/kinds.rt", "    One,\n", "    One,\n    Two,\n"), {"Kind:"})
        self.assertEqual(self.changed("low/src/kinds.rt", "ghost Value = { ℕ }", "ghost Value = { Bool }"), {"Kind:"})

    def test_definitions_are_seen(self):
        self.assertEqual(self.changed("low/specs/Here.antt", "n + both n", "both n"), {"twice:", })
        self.assertEqual(self.changed("low/specs/Here.antt", "  other n = both n", "  other n = 0"), {"other:"})
        self.assertEqual(self.changed("low/specs/Words.antt", "half : ℕ", "half : Bool"), {"Pair:"})

    def test_what_words_stand_for_is_seen(self):
        place = {"headings, words and places:"}
        self.assertEqual(self.changed("low/specs/Here.antt", "whole as all", "half as all"), place | {"whole:"})
        self.assertEqual(self.changed("low/specs/Here.antt", "◌+◌", "◌-◌ as ◌+◌"), place)
        self.assertEqual(self.changed("low/specs/Here.antt", "std.specs.Prelude.{ℕ, ◌+◌", "std.specs.Int.{ℕ, ◌+◌"), place)

    def test_a_place_is_told_apart(self):
        moved = {name.replace("low/specs/Words", "high/specs/Words"): text.replace("low.specs.Words", "high.specs.Words")
                 for name, text in SMALL.items()}
        told = dict(theorem_text.changes(small_text(SMALL), small_text(moved)))
        self.assertEqual(told, {"headings, words and places:": ["-<!-- low Words -->", "+<!-- high Words -->"]})


# Changes of the crates that say less: the file, what is looked for in it, and what takes its place.
WEAKENED = [
    ("rvgprof_main/src/main.rt", r"    ensures \{ EndsWith.*?\}\n", ""),
    ("rvgprof_main/specs/Exit.antt", r"Answered words old new answer × ", ""),
    ("courses/specs/Statuses.antt", r"WriteFault = 6", "WriteFault = 0"),
    ("rvgprof/src/laws.rt", r"⊎ Complete words old new result", "⊎ ⊤"),
    ("folder_system/src/system.rt", r"        ensures begun \{.*?\n(?=        ensures given_up)", ""),
    ("folder_system/src/system.rt", r"        ensures ended \{.*?\n(?=        ensures none)", ""),
    ("folder_system/specs/Place.antt", r"(HasCause name kind[^=]*=|HasCause [^:\n]*=).*?\n(?=\n|HasCause)", "\\1 ⊤\\n"),
    ("courses/src/outcome.rt", r"        ensures \{ result ≡ status_of self.now \}\n", ""),
    ("courses/src/outcome.rt", r"        ensures \{ result ≡ 0 \}\n", ""),
    ("rvgprof/src/top.rt", r"(-> Result<Done, Fault>\n)(    requires \{ \(H.outside host.old\).is_writing ≡ false \}\n    ensures usage \{ \(result ≡ Err Fault.Usage\) ↔ \(command_of \(map)",
     "\\1    requires short { length words.now < 3 }\\n\\2"),
    ("propagate/src/laws.rt", r"→ IsClosed g set → IsConserved", "→ IsClosed g set → set 0 ≡ true → IsConserved"),
    ("gp_base/src/limits.rt", r"67_108_864", "1_048_576"),
    ("settings/src/setup.rt", r"pub budget: u32", "pub budget: u16"),
    ("settings/src/setup.rt", r"pub enum Plan \{", "pub enum Plan {\n    Other,"),
    ("courses/specs/Contract.antt", r"\{Err as Complain\}", "{Out as Complain}"),
    ("rvgprof/specs/Headline.antt", r"Shown.TheVariants as shows", "Other.TheVariants as shows"),
    ("call_cycles/specs/Graph.antt", r"◌<◌, (.*?)\n\n", "\\1\\n\\nabbrev pub ◌<◌ : ℕ → ℕ → Type 0\\n◌<◌ a b = ⊤\\n\\n"),
    ("call_cycles/specs/Graph.antt", r"std.proofs.Common.\{◌⊎◌\}", "std.proofs.Other.{◌⊎◌}"),
    ("call_cycles/specs/Graph.antt", r"◌<◌, ◌≤◌", "◌≤◌ as ◌<◌, ◌≤◌"),
    ("gmon_data/specs/Content.antt", r"use Rattle.std.specs.List\.", "use Rattle.std.specs.Seq."),
    ("call_cycles/specs/Graph.antt", r"nat_lt, ℕ", "nat_le as nat_lt, ℕ"),
    ("call_cycles/specs/Flow.antt", r"IsClosed g set = .*?\n(?=\n)", "IsClosed g set = ⊥\n"),
    ("rvgprof/specs/Headline.antt", r"pub parts : \(i : ℕ\) →", "pub parts : (i : ℕ) ×"),
    ("host_port/src/host.rt", r"\n        ensures counts \{ Reads \(outside self.old\) \(outside self.new\) result \};",
     ";"),
    ("host_port/src/host.rt", r"    ghost consistent: .*?;\n", ""),
    ("folder_system/src/system.rt", r"ghost disk = \{ λ s\. .*? \};", "ghost disk = { λ _. None };"),
    ("system_host/src/host.rt", r"disk = if a.tells then S.disk a.system else None", "disk = None"),
    ("system_host/src/host.rt", r"        ensures stops .*?\n", ""),
    ("folder_system/src/place.rt", r"(pub fn begin.*?)    ensures cause [^\n]*\n", "\\1"),
    ("folder_system/src/beside.rt", r"        ensures lost .*?\n(?=    \{)", ""),
    ("folder_system/src/folder.rt", r"ensures \{ Becomes \(after \(Looked name.now \(found_by result\)\)\) \(history self.old\) \(history self.new\) \}",
     "ensures { ⊤ }"),
    ("propagate/src/laws.rt", r"pub fn conservation.*?\n\{\}\n", ""),
    ("propagate/src/laws.rt", r"pub fn conservation", "fn conservation"),
    ("propagate/src/laws.rt", r"    ensures whole \{ \(g : GraphValue\)", "    // ensures whole { (g : GraphValue)"),
    ("propagate/specs/Proportion.antt", r" × \(time \* calls < \(part \+ 1\) \* all\)", ""),
    ("rvgprof/specs/Headline.antt", r"  pub conserved : [^\n]*\n", ""),
    ("rvgprof/specs/Headline.antt", r"  pub conserved : ", "  -- pub conserved : "),
    ("command_words/specs/Items.antt", r"  items_from_value verb key i \[\] = None",
     "  items_from_value verb key i [] = Some []"),
    ("mcount_arcs/specs/Samples.antt", r"65535", "255"),
    ("rvgprof_main/src/main.rt", r"skip\(1\)", "skip(2)"),
    ("rvgprof_main/src/real_folder.rt", r"output.sync_all\(\)", "Ok(())"),
    ("rvgprof/src/top.rt", r"use host_port::Host;", "use host_port::TakesPieces as Host;"),
    ("host_port/specs/Act.antt", r"Create : List ℕ → Act", "Create : Act"),
    ("courses/specs/Help.antt", r"usage", "usages"),
    ("flat_report/specs/FlatText.antt", r'codes "', 'codes "x'),
    ("folder_system/specs/Entries.antt", r"Whole", "Wholly"),
    ("folder_system/specs/Place.antt", r"\nIsTaken ([^=]*)=.*?\n(?=\n|IsTaken)", "\\nIsTaken \\1= ⊤\\n"),
    ("gp_base/src/bytes.rt", r"    ensures one_spelling .*?\n", ""),
    ("call_cycles/specs/Flow.antt", r"\n-- what", "\ninfix 5 ◌foo◌\n\n-- what"),
    ("call_cycles/specs/Flow.antt", r"\nabbrev pub IsClosed", "\nmodule _ (no : ⊥) where\n  abbrev pub IsClosed"),
    ("rvgprof/src/top.rt", r"#\[tactic\(auto\)\]\npub fn rvgprof", "#[trusted]\npub fn rvgprof"),
    ("folder_system/src/system.rt", r"    fn close\(&mut self", "    #[trusted]\n    fn close(&mut self"),
    ("rvgprof/src/top.rt", r"pub fn rvgprof<H: Host>", "pub fn rvgprof<H: Host + Mute>"),
    ("host_port/src/host.rt", r"pub trait Host \{", "pub trait Host: Mute {"),
    ("system_host/src/host.rt", r"impl<S: System> Host for", "impl<S: System + Mute> Host for"),
    ("rvgprof/src/top.rt", r"use host_port::Host;", "use std::fmt::Debug as Host;"),
    ("host_port/src/mem_host.rt", r"        ensures \{ result ≡ empty_memory \}\n", ""),
    ("folder_system/src/mem_folder.rt", r"ghost history = \{ .*? \};", "ghost history = { λ f. [] };"),
]
# Imports that leave a word without a meaning that can be read: the file, what is looked for, and what takes its place.
LOST = [
    ("rvgprof/specs/Headline.antt", r"use Rattle.rvgprof.specs.Texts.\{", "use Rattle.rvgprof.proofs.Texts.{"),
    ("rvgprof/specs/Headline.antt", r"use Rattle.rvgprof.specs.Texts.\{", "use Rattle.rvgprof.specs.Others.{"),
    ("rvgprof/specs/Headline.antt", r"use Rattle.rvgprof.specs.Texts.\{", "use Rattle.rvgprof.specs.Texts hiding {"),
    ("rvgprof/src/top.rt", r"use host_port::Host;", "use host_port::*;"),
    ("host_port/src/lib.rt", r"pub use host::\{Failed, Host\};", "pub use host::Failed;\npub use whole_file::TakesPieces as Host;"),
]
# Changes that say no less.
SAME = [
    ("rvgprof/src/top.rt", r"    ensures refusals \{ IfErr result RefusalIsNoWant \}\n    ensures acted",
     "    ensures acted"),
    ("folder_system/src/place.rt", r"let found = folder.look\(name\)\?;",
     "let found = folder.look(name)?;\n    let _unused = 0;"),
    ("courses/src/outcome.rt", r"Fault::Usage => 1", "Fault::Usage => 1 + 0"),
    ("call_cycles/specs/Calls.antt", r"count_of arcs = ", "count_of arcs = 0 + "),
    ("call_cycles/specs/Graph.antt", r"◌<◌, ◌≤◌", "◌≤◌, ◌<◌"),
    ("command_words/src/names.rt", r"ghost view = \{ λ a\. map string_bytes a.list.now \}", "ghost view = { λ a. [] }"),
    ("rvgprof/src/top.rt", r"#\[tactic\(auto\)\]\n", ""),
]


class Crates(unittest.TestCase):
    FILES = theorem_sources.all_files()

    def weakened(self, name, pattern, new):
        """The theorem of the crates with another file."""
        old = (theorem_sources.CRATES / name).read_text()
        text = re.sub(pattern, new, old, count=1, flags=re.S)
        self.assertTrue(text != old, f"{name} lacks {pattern}")
        key, file = theorem_sources.file_of(name, text)
        return theorem.Theorem({**self.FILES, key: file})

    def texts(self, *row):
        """The text of the crates with another file."""
        return theorem_text.text_of(self.weakened(*row))

    def test_what_says_less_is_seen(self):
        text = theorem_text.text_of(theorem.Theorem(self.FILES))
        for row in WEAKENED:
            with self.subTest(row[0], of=row[1]):
                self.assertTrue(self.texts(*row) != text)

    def test_what_cannot_be_read_is_lost(self):
        self.assertEqual(theorem.Theorem(self.FILES).lost, set())
        for row in LOST:
            with self.subTest(row[0], of=row[2]):
                self.assertTrue(self.weakened(*row).lost)

    def test_what_says_the_same_is_passed_over(self):
        text = theorem_text.text_of(theorem.Theorem(self.FILES))
        for row in SAME:
            with self.subTest(row[0], of=row[1]):
                self.assertTrue(self.texts(*row) == text)


if __name__ == "__main__":
    unittest.main()
