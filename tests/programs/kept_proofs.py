"""Compares a proof over what the last one left with a proof from nothing, after edits of a library below.

tools/prove.py begins a proof with crates/NAME/out/incremental, which is the prover's own. A verdict would be stale if the prover took
something from there that an edit below has changed. So two small libraries are made, `low` and `mid` over it. After each edit of `low`,
`mid` is proved over its folder and from nothing: both are refused, or both leave the same bytes. If callers cannot see what was edited, no
module of `mid` may be checked again; if they can, some have to be.

tier: all, 600 seconds; for: tools/prove.py
"""
import os
import re
import shutil
import sys
import tempfile

from tests.lib.compare import notices, same
from tests.lib.files import read_bytes, write
from tests.lib.programs import ran
from tests.wrong_bodies import edits
from tools import prove

LOW = """//! Low.
#![tactic(auto)]
ghost use Rattle.std.specs.Prelude.{◌≡◌, ◌%◌};
ghost use Rattle.low.specs.Low.{twice};
use std::marker::Model;
pub const MOST: usize = 22;
const HIDDEN: u32 = 7;
pub fn twice(number: u32) -> u64 ensures { result ≡ twice number } { help(number) }
fn help(number: u32) -> u64 ensures { result ≡ twice number } { (number as u64) * 2 }
pub fn hidden() -> u32 { HIDDEN }
pub fn pick<T: Drop>(first: T, second: T, is_first: bool) -> T { if is_first { first } else { second } }
#[inline(always)]
pub fn low_bits(number: u32) -> u32 ensures { result ≡ number % 16 } { number % 16 }
#[derive(Drop)]
pub struct Counter { count: u32 }
impl Model for Counter {
    ghost use Rattle.std.specs.Prelude.{ℕ};
    ghost Value = { ℕ };
    ghost view = { λ t. t.count };
}
impl Counter {
    pub fn new() -> Counter ensures { result ≡ 0 } { Counter { count: 0 } }
    pub fn count(&self) -> u32 ensures { result ≡ self.now } { self.count }
}
"""
DEFINED = """-- Low
use Rattle.std.specs.Prelude.{ℕ, ◌*◌}
abbrev pub twice : ℕ → ℕ
twice n = n * 2
"""
FACTS = """-- Facts
use Rattle.std.proofs.Common.{ℕ, ◌+◌, ◌≡◌, arith}
use Rattle.low.specs.Low.{twice}
pub fact : (n : ℕ) → twice n ≡ n + n
fact n = omega arith
"""
MID = """//! Mid.
#![tactic(auto)]
ghost use Rattle.std.specs.Prelude.{◌≡◌, ◌+◌, ◌≤◌};
ghost use Rattle.low.specs.Low.{twice};
use low::{Counter, MOST, hidden, low_bits, pick, twice};
pub fn quad(number: u32) -> u64 ensures { result ≡ twice number + twice number } { twice(number) + twice(number) }
pub fn four() -> u64 ensures { result ≡ 8 } { twice(4) }
#[tactic(auto, using(crate::proofs::Cites::cited))]
pub fn by_lemma(number: u32) -> u64 ensures { result ≡ number + number } { twice(number) }
pub fn bits(number: u32) -> u32 ensures { result ≤ 15 } { low_bits(number) }
pub fn fresh() -> u32 ensures { result ≡ 0 } { Counter::new().count() }
pub fn most() -> usize ensures { result ≡ 22 } { MOST }
pub fn one(is_first: bool) -> u32 { pick(hidden(), 3, is_first) }
"""
CITES = """-- Cites
use Rattle.std.proofs.Common.{ℕ, ◌+◌, ◌≡◌}
use Rattle.low.specs.Low.{twice}
use Rattle.low.proofs.Facts.{fact}
pub cited : (n : ℕ) → twice n ≡ n + n
cited n = fact n
"""
SOURCES = {"crates.txt": "low:\nmid: low\n", "crates/low/src/lib.rt": LOW, "crates/low/specs/Lib.antt": "pub mod Low\n",
           "crates/low/specs/Low.antt": DEFINED, "crates/low/proofs/Lib.antt": "pub mod Facts\n", "crates/low/proofs/Facts.antt": FACTS,
           "crates/mid/src/lib.rt": MID, "crates/mid/proofs/Lib.antt": "mod Cites\n", "crates/mid/proofs/Cites.antt": CITES}
# what is edited; whether callers can see it, and whether `mid` is still proved; and each file of `low` with an old text and a new one
RS, FACT, SPEC = "src/lib.rt", "proofs/Facts.antt", "specs/Low.antt"
HELP = "{ (number as u64) * 2 }"
EDITS = [
    ("the body of a private function", False, True, [(RS, HELP, "{ (number as u64) + (number as u64) }")]),
    ("a new private function", False, True, [(RS, HELP, "{ wide(number) * 2 }\n"
                                              "fn wide(number: u32) -> u64 ensures { result ≡ number } { number as u64 }")]),
    ("the body of a generic function", False, True, [(RS, "if is_first { first } else { second }",
                                                      "if !is_first { second } else { first }")]),
    ("the body of an inline function", False, True, [(RS, "{ number % 16 }", "{ let sixteen = 16; number % sixteen }")]),
    ("a constant of a body", False, True, [(RS, "HIDDEN: u32 = 7", "HIDDEN: u32 = 8")]),
    ("the proof of a lemma", False, True, [(FACT, "fact n = omega arith", "fact n = let e : twice n ≡ n + n = omega arith in e")]),
    ("a private field", True, True, [(RS, "{ count: u32 }", "{ count: u32, seen: bool }"),
                                     (RS, "Counter { count: 0 }", "Counter { count: 0, seen: false }")]),
    ("a contract, with one clause more", True, True, [(RS, "ensures { result ≡ number % 16 }",
                                                       "ensures one { result ≡ number % 16 } ensures two { result ≡ number % 16 }")]),
    ("a contract, with none left", True, False, [(RS, "ensures { result ≡ twice number } { help", "{ help")]),
    ("a definition, of the same number", True, True, [(SPEC, "twice n = n * 2", "twice n = 2 * n")]),
    ("a definition, of another number", True, False, [(SPEC, "twice n = n * 2", "twice n = n * 3"), (FACT, "≡ n + n", "≡ n + n + n"),
                                                      (RS, HELP, "{ (number as u64) * 3 }")]),
    ("a public constant", True, False, [(RS, "MOST: usize = 22", "MOST: usize = 23")]),
    ("what a lemma says", True, False, [(FACT, "twice n ≡ n + n", "twice n ≡ twice n")]),
]


def proved(place, name):
    """Proves a library over what its folder keeps. The status, how many of its modules are checked, and all that is printed."""
    *_, crate = prove.crates_under(name)
    done = ran(*prove.Kit(place).proving(crate, 2, is_anew=False), cwd=f"crates/{name}")
    counts = re.search(rf"^crate {name}: modules loaded=\d+ checked=(\d+)$", done.said(), re.M)
    return done.status, int(counts[1]) if counts else None, done.said()


def files(top):
    """Each file below a folder, with its bytes."""
    paths = [os.path.join(at, name) for at, _, names in os.walk(top) for name in names]
    return {os.path.relpath(path, top): read_bytes(path) for path in paths}


def compare(kept, is_seen, is_proved):
    """Proves both after an edit: `mid` over what was kept of it before, and from nothing."""
    work = "crates/mid/out/incremental"
    with tempfile.TemporaryDirectory() as place:
        status, _, said = proved(place, "low")
        same(f"low, which says\n{said}", status, 0)
        shutil.rmtree(work, ignore_errors=True)
        shutil.copytree(kept, work)
        status, checked, said = proved(place, "mid")
        over = files(f"{place}/mid.rlib")
        for path in (work, f"{place}/mid.rlib"):
            shutil.rmtree(path, ignore_errors=True)
        anew, whole, _ = proved(place, "mid")
        same("the status of both", status, anew)
        same(f"whether it is proved, by\n{said}", status == 0, is_proved)
        same("what both leave", over, files(f"{place}/mid.rlib"))
        same(f"whether any of {whole} modules is checked again", bool(checked), is_seen)
        return f"{checked} of {whole} modules checked again"


def main():
    with tempfile.TemporaryDirectory() as top, tempfile.TemporaryDirectory() as place:
        os.chdir(top)
        for path, text in SOURCES.items():
            write(path, text)
        for name in ("low", "mid"):
            os.makedirs(f"crates/{name}/out")
            status, _, said = proved(place, name)
            same(f"{name}, which says\n{said}", status, 0)
        kept = shutil.copytree("crates/mid/out/incremental", "kept")
        for number, (what, is_seen, is_proved, changes) in enumerate(EDITS):
            texts = edits.changed(changes, "crates/low")
            for path, text in texts.items():
                write(f"crates/low/{path}", text)
            if not number:
                notices(compare, kept, not is_seen, is_proved)
            print(f"{what}: {compare(kept, is_seen, is_proved)}", flush=True)
            for path in texts:
                write(f"crates/low/{path}", SOURCES[f"crates/low/{path}"])
    return 0


if __name__ == "__main__":
    sys.exit(main())
