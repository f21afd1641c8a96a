//! Why a call refuses.

use std::error::Error;
use std::fmt;

/// The first question that was answered no. A call that refuses has done nothing else.
#[derive(Clone, Copy, Debug, PartialEq, Eq)]
pub struct Refusal {
    number: u8,
    place: usize,
}

/// What a no to each question says, question 1 first. The Python module has the same texts.
const TEXTS: [&str; 16] = [
    "the card has more than 8,326 bytes",
    "the card has no first byte, or bits in it that no card has",
    "a field of the card is cut off",
    "the card goes on behind its last field",
    "an entry of the matrix is not from -2147483647 to 2147483647",
    "the determinant is not 1",
    "there are more than 64 generators",
    "there are more than 4,096 letters in the list, the target or the word",
    "the ends fall, or the last is not the number of letters",
    "a letter is not R or S",
    "a generator's normal form has more than 80 letters, or the sum up to it more than 320",
    "the normal form of the target, the word or the matrix has more than 80 letters",
    "n is more than 1,000",
    "the output is too short",
    "a table is too short",
    "an entry of the word's matrix is not from -2147483647 to 2147483647",
];

impl Refusal {
    /// `number` is one of a question, from 1 to 16: the library's other three are no refusals.
    pub(crate) fn new(number: u8, place: usize) -> Refusal {
        Refusal { number, place }
    }

    /// The question's number, from 1 to 16.
    pub fn number(&self) -> u8 {
        self.number
    }

    /// The place that the question names, or 0: a byte of the card (3, 4), an entry of the matrix (5), a letter, where the target's count on from the
    /// list's (10), or a generator (11).
    pub fn place(&self) -> usize {
        self.place
    }

    /// What is wrong, in words.
    pub fn text(&self) -> &'static str {
        TEXTS[usize::from(self.number) - 1]
    }
}

impl fmt::Display for Refusal {
    fn fmt(&self, f: &mut fmt::Formatter<'_>) -> fmt::Result {
        write!(
            f,
            "refused by question {}, place {}: {}",
            self.number,
            self.place,
            self.text()
        )
    }
}

impl Error for Refusal {}
