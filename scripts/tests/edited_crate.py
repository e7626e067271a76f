"""A small crate, whose checks with edits are recorded in edit_checks, and edits of it."""
from edits.edit_files import MORE, Edit

SUMS = """//! Sums.
ghost use Rattle.std.specs.Prelude.{◌≡◌, ◌+◌, ◌*◌, ◌≤◌};

/// Twice the number.
pub(crate) fn double(x: u32) -> u32
    requires few { x ≤ 1000 }
    ensures value { result ≡ x + x }
{
    x + x
}

/// Four times the number.
pub(crate) fn quadruple(x: u32) -> u32
    requires few { x ≤ 500 }
    ensures value { result ≡ 4 * x }
{
    double(double(x))
}

/// The number and one.
pub(crate) fn next(x: u32) -> u32
    requires few { x ≤ 1000 }
    ensures value { result ≡ x + 1 }
{
    x + 1
}

/// Two for each.
pub(crate) fn twos(n: u8) -> u32
    ensures value { result ≡ 2 * n }
{
    let mut sum = 0;
    for _ in 0..n {
        sum += 2;
    }
    sum
}
"""
WORDS = """//! Words.
ghost use Rattle.std.specs.Prelude.{◌≡◌, ◌+◌, ◌*◌, ◌≤◌, Ok, ⊤};

use std::alloc::AllocError;

use crate::sums;

/// A pair of words.
#[derive(Debug, PartialEq, Eq, Drop)]
pub struct Words {
    pub low: u32,
    pub high: u32,
}

impl Words {
    /// The low word.
    pub fn lowest(&self) -> u32
        ensures value { result ≡ self.now.low }
    {
        self.low
    }

    /// The low word, or none past a limit.
    pub fn within(&self, most: u32) -> u32
        ensures small { result ≤ most }
    {
        if self.low <= most {
            self.low
        } else {
            most
        }
    }
}

impl Clone for Words {
    ghost is_clone = { λ words copy. copy ≡ words };

    ghost is_infallible = { λ _. ⊤ };

    fn clone(&self) -> Result<Self, AllocError>
        ensures { result ≡ Ok self.now }
    {
        Ok(Words {
            low: self.low,
            high: self.high,
        })
    }
}

/// Nine times the number.
pub fn nine(x: u32) -> u32
    requires few { x ≤ 100 }
    ensures value { result ≡ 8 * x + 1 }
{
    sums::next(sums::quadruple(sums::double(x)))
}
"""
TEXTS = {"src/sums.rt": SUMS, "src/words.rt": WORDS}


def edit(name: str, old: str, new: str, clause: str = "") -> Edit:
    """An edit of the crate: of the file that has such a text."""
    file = "src/sums.rt" if old in SUMS else "src/words.rt"
    said = f"# clause: {clause}\n" if clause else ""
    return Edit("toy", name, MORE, f"{said}# what: it\n# also: that\nfile: {file}\nold: {old}\nnew: {new}\n")


TWICE_AND_ONE = edit("twice_and_one", "    x + x", "    x + x + 1", "double, value (twice)")
QUADRUPLE_OF_MORE = edit("quadruple_of_more", "double(double(x))", "double(double(x) + 500)", "quadruple (four times)")
THREE_EACH = edit("three_each", "sum += 2;", "sum += 3;")
COPY = edit("copy", "low: self.low,", "low: self.high,", "clone of Words (a copy is what was copied)")
BELOW = edit("below", "if self.low <= most {", "if self.low < most {")
LOOP_NAMED = edit("loop_named", "for _ in 0..n", "for at in 0..n")
A_TRUTH = edit("a_truth", "    x + 1", "    x + true")
BUT_ONE = edit("but_one", "    x + 1", "    x + 2", "next (and one)")
