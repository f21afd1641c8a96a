//! The calls on slices that the caller lends, for those who keep the tables themselves. Each takes slices of any length and any content: it answers, or it
//! refuses, and a refusal changes nothing.
//!
//! All that is unsafe is here. The library takes for granted what a Rust slice is: a pointer that is aligned and valid for its length, entries that have been
//! written, and, of two slices, no overlap where one of them is mutable.

use crate::Refusal;

/// An answer: 0 and its value. None: `NONE` and n, or 0 where there is no bound. Open: `OPEN` and 0. A refusal: the question's number, from 1 to 16, and its
/// place.
#[repr(C)]
struct Outcome {
    number: u8,
    value: usize,
}

const NONE: u8 = 255;

const OPEN: u8 = 254;

/// What reduction answers: 0, the pairs and the triples that went, and the length. A refusal: the question's number, no pairs, no triples, and its place.
#[repr(C)]
struct ReductionOutcome {
    number: u8,
    pairs: u16,
    triples: u16,
    value: usize,
}

/// Where the letters of a factor stand: from `start` up to `end`, in the inverse slice where `inverse` is 1, and in the given one where it is 0.
#[repr(C)]
struct Part {
    inverse: u8,
    start: u16,
    end: u16,
}

/// The bytes that an inverse slice must have (question 14). No list has more than 512 letters of inverses.
pub const INVERSES: usize = 640;

/// The number of an inverse factor is this and its generator's.
pub const INVERSE: u8 = 128;

extern "C" {
    fn kernelhop_version() -> u32;
    fn kernelhop_is_normal(word: *const u8, word_len: usize) -> Outcome;
    fn kernelhop_reduce(
        word: *const u8,
        word_len: usize,
        out: *mut u8,
        out_len: usize,
    ) -> ReductionOutcome;
    fn kernelhop_invert(word: *const u8, word_len: usize, out: *mut u8, out_len: usize) -> Outcome;
    fn kernelhop_word_to_matrix(word: *const u8, word_len: usize, out: *mut [i64; 4]) -> Outcome;
    fn kernelhop_matrix_to_word(
        a: i64,
        b: i64,
        c: i64,
        d: i64,
        out: *mut u8,
        out_len: usize,
    ) -> Outcome;
    fn kernelhop_judge(
        bytes: *const u8,
        bytes_len: usize,
        ends: *const u16,
        ends_len: usize,
        target: *const u8,
        target_len: usize,
        n: u16,
        first: *mut u16,
        first_len: usize,
        second: *mut u16,
        second_len: usize,
        witness: *mut u8,
        witness_len: usize,
    ) -> Outcome;
    fn kernelhop_reachable(
        bytes: *const u8,
        bytes_len: usize,
        ends: *const u16,
        ends_len: usize,
        target: *const u8,
        target_len: usize,
        first: *mut u16,
        first_len: usize,
        second: *mut u16,
        second_len: usize,
    ) -> Outcome;
    fn kernelhop_judge_subgroup(
        bytes: *const u8,
        bytes_len: usize,
        ends: *const u16,
        ends_len: usize,
        target: *const u8,
        target_len: usize,
        n: u16,
        first: *mut u16,
        first_len: usize,
        second: *mut u16,
        second_len: usize,
        witness: *mut u8,
        witness_len: usize,
        inverses: *mut u8,
        inverses_len: usize,
    ) -> Outcome;
    fn kernelhop_letters_of(
        bytes: *const u8,
        bytes_len: usize,
        ends: *const u16,
        ends_len: usize,
        inverses: *const u8,
        inverses_len: usize,
        number: u8,
    ) -> Part;
    fn kernelhop_quick_no(
        bytes: *const u8,
        bytes_len: usize,
        ends: *const u16,
        ends_len: usize,
        target: *const u8,
        target_len: usize,
    ) -> Outcome;
    fn kernelhop_answer_card(
        card: *const u8,
        card_len: usize,
        first: *mut u16,
        first_len: usize,
        second: *mut u16,
        second_len: usize,
        witness: *mut u8,
        witness_len: usize,
    ) -> Outcome;
}

/// A reduction whose normal form stands in the front of the lent slice, with `length` letters. The word has as many letters as these, twice the pairs and
/// three times the triples together, and twice the pairs are its R's, less those of the normal form.
#[derive(Clone, Copy, Debug, PartialEq, Eq)]
pub struct Reduced {
    pub length: usize,
    /// How many RR went.
    pub pairs: usize,
    /// How many SSS went.
    pub triples: usize,
}

/// A verdict whose factors stand in the lent witness.
#[derive(Clone, Copy, Debug, PartialEq, Eq)]
pub enum Judged {
    /// A member: by the factors whose numbers are the first `count` bytes of the witness, one or more, and by no fewer; of the series of that count they are
    /// the first when their numbers are compared from left to right. A factor is a generator, and for `judge_subgroup` also the inverse of one, with a number
    /// from `INVERSE` on.
    Member { count: usize },
    /// No product of at most n factors is the target.
    None { n: u16 },
}

fn value(outcome: Outcome) -> Result<usize, Refusal> {
    match outcome.number {
        0 => Ok(outcome.value),
        number => Err(Refusal::new(number, outcome.value)),
    }
}

fn judged(outcome: Outcome) -> Result<Judged, Refusal> {
    match outcome.number {
        NONE => Ok(Judged::None {
            n: outcome.value as u16,
        }),
        _ => Ok(Judged::Member {
            count: value(outcome)?,
        }),
    }
}

fn reached(outcome: Outcome) -> Result<bool, Refusal> {
    match outcome.number {
        NONE => Ok(false),
        _ => Ok(value(outcome)? == 1),
    }
}

fn said_no(outcome: Outcome) -> Result<bool, Refusal> {
    match outcome.number {
        NONE => Ok(true),
        OPEN => Ok(false),
        number => Err(Refusal::new(number, outcome.value)),
    }
}

/// The library's release: 10,000 times its major number, 100 times its minor one, and its patch number.
pub(crate) fn version() -> u32 {
    unsafe { kernelhop_version() }
}

/// Whether a word is in normal form. Asks questions 8 and 10.
pub(crate) fn is_normal(word: &[u8]) -> Result<bool, Refusal> {
    Ok(value(unsafe { kernelhop_is_normal(word.as_ptr(), word.len()) })? == 1)
}

/// Writes the normal form of a word to the front of `out`; the answer is its length, and how many pairs and triples went. Asks questions 8, 10 and 14: room for
/// as many letters as the word has.
pub fn reduce(word: &[u8], out: &mut [u8]) -> Result<Reduced, Refusal> {
    let outcome =
        unsafe { kernelhop_reduce(word.as_ptr(), word.len(), out.as_mut_ptr(), out.len()) };
    match outcome.number {
        0 => Ok(Reduced {
            length: outcome.value,
            pairs: usize::from(outcome.pairs),
            triples: usize::from(outcome.triples),
        }),
        number => Err(Refusal::new(number, outcome.value)),
    }
}

/// Writes the normal form of a word's inverse to the front of `out`; the answer is its length. Asks questions 8, 10 and 14: room for twice as many letters.
pub fn invert(word: &[u8], out: &mut [u8]) -> Result<usize, Refusal> {
    value(unsafe { kernelhop_invert(word.as_ptr(), word.len(), out.as_mut_ptr(), out.len()) })
}

/// Writes the matrix of a word. Asks questions 8, 10, 12 and 16.
pub fn word_to_matrix(word: &[u8], out: &mut [i64; 4]) -> Result<(), Refusal> {
    value(unsafe { kernelhop_word_to_matrix(word.as_ptr(), word.len(), out) })?;
    Ok(())
}

/// Writes the normal form of a matrix to the front of `out`; the answer is its length. Asks questions 5, 6, 12 and 14: room for 80 letters.
pub fn matrix_to_word([a, b, c, d]: [i64; 4], out: &mut [u8]) -> Result<usize, Refusal> {
    value(unsafe { kernelhop_matrix_to_word(a, b, c, d, out.as_mut_ptr(), out.len()) })
}

/// The verdict on a list, which is the letters of its generators, one behind the other, and their ends. Asks questions 7 to 15. Of a witness that is lent only
/// a member's factors are written; of each table the first q * q entries are 0 afterwards, and the others are as they were.
pub fn judge(
    bytes: &[u8],
    ends: &[u16],
    target: &[u8],
    n: u16,
    first: &mut [u16],
    second: &mut [u16],
    witness: &mut [u8],
) -> Result<Judged, Refusal> {
    judged(unsafe {
        kernelhop_judge(
            bytes.as_ptr(),
            bytes.len(),
            ends.as_ptr(),
            ends.len(),
            target.as_ptr(),
            target.len(),
            n,
            first.as_mut_ptr(),
            first.len(),
            second.as_mut_ptr(),
            second.len(),
            witness.as_mut_ptr(),
            witness.len(),
        )
    })
}

/// The verdict without a bound: whether the target is a product of the list's generators, of one or more, however many. Asks questions 7 to 12 and 15. No
/// factors are written; of each table the first q * q entries are 0 afterwards, and the others are as they were.
pub fn reachable(
    bytes: &[u8],
    ends: &[u16],
    target: &[u8],
    first: &mut [u16],
    second: &mut [u16],
) -> Result<bool, Refusal> {
    reached(unsafe {
        kernelhop_reachable(
            bytes.as_ptr(),
            bytes.len(),
            ends.as_ptr(),
            ends.len(),
            target.as_ptr(),
            target.len(),
            first.as_mut_ptr(),
            first.len(),
            second.as_mut_ptr(),
            second.len(),
        )
    })
}

/// The verdict on the subgroup of a list: factor i is generator i, and factor `INVERSE` + i its inverse. Asks questions 7 to 15, those about the list of the
/// given generators only; 14 also that `inverses` has `INVERSES` bytes; and for 15 the letters of the inverses count as well. What is lent is left as `judge`
/// leaves it. After a member or none the front of `inverses` is the inverses' normal forms, one behind the other, and its rest is as it was.
#[allow(clippy::too_many_arguments)]
pub fn judge_subgroup(
    bytes: &[u8],
    ends: &[u16],
    target: &[u8],
    n: u16,
    first: &mut [u16],
    second: &mut [u16],
    witness: &mut [u8],
    inverses: &mut [u8],
) -> Result<Judged, Refusal> {
    judged(unsafe {
        kernelhop_judge_subgroup(
            bytes.as_ptr(),
            bytes.len(),
            ends.as_ptr(),
            ends.len(),
            target.as_ptr(),
            target.len(),
            n,
            first.as_mut_ptr(),
            first.len(),
            second.as_mut_ptr(),
            second.len(),
            witness.as_mut_ptr(),
            witness.len(),
            inverses.as_mut_ptr(),
            inverses.len(),
        )
    })
}

/// The letters of a factor, by its number as `judge_subgroup` writes it: a generator's as they are given, and an inverse's in normal form, as long as
/// `inverses` holds what that call wrote for the list. Which part of the two slices it is follows from the list alone. It is the empty one at the start of
/// `given` where a question is answered no, which are 7 to 11 of the list and 14, or where the number is that of no factor of the list.
pub fn letters_of<'a>(given: &'a [u8], ends: &[u16], inverses: &'a [u8], number: u8) -> &'a [u8] {
    let part = unsafe {
        kernelhop_letters_of(
            given.as_ptr(),
            given.len(),
            ends.as_ptr(),
            ends.len(),
            inverses.as_ptr(),
            inverses.len(),
            number,
        )
    };
    let slice = if part.inverse == 0 { given } else { inverses };
    &slice[usize::from(part.start)..usize::from(part.end)]
}

/// The quick answer on a list, from the images of its generators modulo 7, up to sign: true is the no, given exactly when the target's image is not a product
/// of one or more of them, and then `judge`, `reachable` and `judge_subgroup` say none as well; false leaves it open. Asks questions 7 to 12. No tables are
/// needed.
pub fn quick_no(bytes: &[u8], ends: &[u16], target: &[u8]) -> Result<bool, Refusal> {
    said_no(unsafe {
        kernelhop_quick_no(
            bytes.as_ptr(),
            bytes.len(),
            ends.as_ptr(),
            ends.len(),
            target.as_ptr(),
            target.len(),
        )
    })
}

/// The verdict that a card asks for. Asks questions 1 to 15, and does to the lent slices what `judge` does.
pub fn answer_card(
    card: &[u8],
    first: &mut [u16],
    second: &mut [u16],
    witness: &mut [u8],
) -> Result<Judged, Refusal> {
    judged(unsafe {
        kernelhop_answer_card(
            card.as_ptr(),
            card.len(),
            first.as_mut_ptr(),
            first.len(),
            second.as_mut_ptr(),
            second.len(),
            witness.as_mut_ptr(),
            witness.len(),
        )
    })
}
