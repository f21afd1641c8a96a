//! A list that is taken as the subgroup that it generates: the factors, which may be inverses, and the answer.

use crate::lent::{self, INVERSE};
use std::fmt;

/// A generator, or the inverse of one. It is shown as the generator's number, from 0, and as this number and `^-1`. Of two factors the one is smaller that
/// is written by the smaller number: every generator stands before every inverse.
#[derive(Clone, Copy, PartialEq, Eq, PartialOrd, Ord, Hash)]
pub struct SignedFactor {
    written: u8,
}

impl SignedFactor {
    /// The factor that a witness has as this number: below 128 the generator of that number, and from there on, less 128, the inverse of one.
    pub fn from_written(written: u8) -> SignedFactor {
        SignedFactor { written }
    }

    /// Its number as a witness has it: the generator's, with 128 added for the inverse.
    pub fn written(self) -> u8 {
        self.written
    }

    /// The number of the generator that it is, or is the inverse of, from 0.
    pub fn generator(self) -> usize {
        usize::from(self.written & !INVERSE)
    }

    pub fn is_inverse(self) -> bool {
        self.written >= INVERSE
    }
}

impl fmt::Display for SignedFactor {
    fn fmt(&self, f: &mut fmt::Formatter<'_>) -> fmt::Result {
        let sign = if self.is_inverse() { "^-1" } else { "" };
        write!(f, "{}{sign}", self.generator())
    }
}

/// As it is shown, so that a series of factors can be read.
impl fmt::Debug for SignedFactor {
    fn fmt(&self, f: &mut fmt::Formatter<'_>) -> fmt::Result {
        fmt::Display::fmt(self, f)
    }
}

/// Whether the target is a product of at most n factors, each of them a generator or the inverse of one.
#[derive(Clone, Debug, PartialEq, Eq)]
pub enum SubgroupVerdict {
    Member(SubgroupMember),
    /// It is not.
    None {
        n: u16,
    },
}

/// A target that is such a product, with its factors and, of each factor of the list, the letters. It is shown as its factors, with a space between two.
#[derive(Clone, PartialEq, Eq)]
pub struct SubgroupMember {
    pub(crate) factors: Vec<SignedFactor>,
    /// The list, and the inverse slice that its verdict wrote.
    pub(crate) given: Vec<u8>,
    pub(crate) ends: Vec<u16>,
    pub(crate) inverses: Vec<u8>,
}

impl SubgroupMember {
    /// The target is the product of these, one or more, and of no fewer; of the series of that count they are the first when the numbers by which they are
    /// written are compared from left to right.
    pub fn factors(&self) -> &[SignedFactor] {
        &self.factors
    }

    /// The factors as the library writes them, a byte each.
    pub fn written(&self) -> Vec<u8> {
        self.factors.iter().map(|factor| factor.written()).collect()
    }

    /// The letters of a factor: a generator's as they were given, and an inverse's in normal form. No letters for a factor that the list does not have.
    pub fn letters(&self, factor: SignedFactor) -> String {
        let letters = lent::letters_of(&self.given, &self.ends, &self.inverses, factor.written());
        crate::text(letters)
    }
}

impl fmt::Display for SubgroupMember {
    fn fmt(&self, f: &mut fmt::Formatter<'_>) -> fmt::Result {
        let factors: Vec<_> = self.factors.iter().map(SignedFactor::to_string).collect();
        f.write_str(&factors.join(" "))
    }
}

impl fmt::Debug for SubgroupMember {
    fn fmt(&self, f: &mut fmt::Formatter<'_>) -> fmt::Result {
        let mut shown = f.debug_struct("SubgroupMember");
        shown
            .field("factors", &self.factors)
            .finish_non_exhaustive()
    }
}
