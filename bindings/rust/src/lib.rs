//! Bounded products in the modular group, over the proved library of this repository.
//!
//! Words are in the letters R and S, where RR and SSS vanish and no other rule holds. Each function takes anything whatever: it answers, or it refuses
//! by a numbered question. `version()` says which release of the library answers.
//!
//! A product has one factor or more. So an empty target, or one that vanishes, asks for a relation: a product that equals the identity.
//!
//! Verdicts are worked out in two tables and a witness that each thread makes at its first verdict and keeps until it ends: up to 926,444 bytes a thread, and
//! up to 3,945,196 once it has asked for a verdict on a subgroup. Who wants to say what memory is used lends it, by the calls of `lent`.
//!
//! ```
//! use kernelhop::{quick_no, reachable, reduce, subgroup_verdict, verdict, SubgroupVerdict, Verdict};
//!
//! let answer = verdict(&["RSRS", "S", "SRSS"], "R", 3)?;
//! assert_eq!(answer, Verdict::Member { factors: vec![0, 1, 2] });
//! assert_eq!(verdict(&["RSRS", "S", "SRSS"], "R", 2)?, Verdict::None { n: 2 });
//! assert!(reachable(&["RSRS", "S", "SRSS"], "R")?);
//!
//! // A relation: of T and the inverse of U, where T is SR and U is SSR. T alone has none.
//! assert_eq!(verdict(&["SR", "RS"], "", 1000)?, Verdict::Member { factors: vec![0, 0, 1, 0, 0, 1] });
//! assert!(!reachable(&["SR"], "")?);
//!
//! // The quick no: no power of T is R, as the matrices modulo 7 show. Of its inverse they leave it open.
//! assert!(quick_no(&["SR"], "R")?);
//! assert!(!quick_no(&["SR"], "RSS")?);
//!
//! // With inverses as factors: T times U to the -1st.
//! let SubgroupVerdict::Member(found) = subgroup_verdict(&["SR", "SSR"], "SS", 1000)? else {
//!     panic!("none");
//! };
//! assert_eq!(found.to_string(), "0 1^-1");
//! assert_eq!(found.letters(found.factors()[1]), "RS");
//!
//! // Of SRRSSSSR one RR went and one SSS, which leaves SSR.
//! let reduction = reduce("SRRSSSSR")?;
//! assert_eq!((reduction.word.as_str(), reduction.pairs, reduction.triples), ("SSR", 1, 1));
//!
//! let refusal = reduce("SRT").unwrap_err();
//! assert_eq!((refusal.number(), refusal.place()), (10, 2));
//! assert_eq!(refusal.to_string(), "refused by question 10, place 2: a letter is not R or S");
//! # Ok::<(), kernelhop::Refusal>(())
//! ```

pub mod lent;
mod refusal;
mod room;
mod subgroup;

pub use refusal::Refusal;
pub use subgroup::{SignedFactor, SubgroupMember, SubgroupVerdict};

use lent::Judged;
use room::Room;

/// Whether the target is a product of at most n generators.
#[derive(Clone, Debug, PartialEq, Eq)]
pub enum Verdict {
    /// It is: by these generators, counted from 0, one or more, and by no fewer; of the series of that count they are the first when their numbers are compared
    /// from left to right.
    Member { factors: Vec<usize> },
    /// It is not.
    None { n: u16 },
}

/// The normal form of a word, and how much of the word was cancelled. The word has as many letters as its normal form, twice the pairs and three times the
/// triples together, and twice the pairs are its R's, less those that are kept: so both counts are fixed by the two words, in whatever order pairs and triples
/// are erased.
#[derive(Clone, Debug, PartialEq, Eq)]
pub struct Reduction {
    /// The normal form.
    pub word: String,
    /// How many RR went.
    pub pairs: usize,
    /// How many SSS went.
    pub triples: usize,
}

/// The letters that a matrix's normal form may have (question 14).
const FORM: usize = 80;

/// The verdict of a call that is lent this thread's room.
fn judged(call: impl FnOnce(&mut Room) -> Result<Judged, Refusal>) -> Result<Verdict, Refusal> {
    Room::lend(|room| {
        Ok(match call(room)? {
            Judged::Member { count } => Verdict::Member {
                factors: room.witness[..count]
                    .iter()
                    .copied()
                    .map(usize::from)
                    .collect(),
            },
            Judged::None { n } => Verdict::None { n },
        })
    })
}

fn text(letters: &[u8]) -> String {
    letters.iter().map(|&letter| char::from(letter)).collect()
}

/// The release of the library that answers, such as `1.7.0`.
pub fn version() -> String {
    let release = lent::version();
    format!(
        "{}.{}.{}",
        release / 10_000,
        release / 100 % 100,
        release % 100
    )
}

/// The normal form of a word, and how many pairs RR and triples SSS went. Asks questions 8 and 10.
///
/// ```
/// use kernelhop::{reduce, Reduction};
///
/// // The pair meets only when the triple has gone.
/// let nothing = Reduction { word: String::new(), pairs: 1, triples: 1 };
/// assert_eq!(reduce("RSSSR")?, nothing);
///
/// let given = "SRRSRSSSSRSRR";
/// let Reduction { word, pairs, triples } = reduce(given)?;
/// assert_eq!(given.len(), word.len() + 2 * pairs + 3 * triples);
/// # Ok::<(), kernelhop::Refusal>(())
/// ```
pub fn reduce(word: impl AsRef<[u8]>) -> Result<Reduction, Refusal> {
    let word = word.as_ref();
    let mut out = vec![0; word.len()];
    let reduced = lent::reduce(word, &mut out)?;
    Ok(Reduction {
        word: text(&out[..reduced.length]),
        pairs: reduced.pairs,
        triples: reduced.triples,
    })
}

/// The normal form of a word's inverse. Asks questions 8 and 10.
pub fn invert(word: impl AsRef<[u8]>) -> Result<String, Refusal> {
    let word = word.as_ref();
    let mut out = vec![0; 2 * word.len()];
    let length = lent::invert(word, &mut out)?;
    Ok(text(&out[..length]))
}

/// Whether a word is in normal form, without RR and SSS in it. Asks questions 8 and 10.
pub fn is_normal(word: impl AsRef<[u8]>) -> Result<bool, Refusal> {
    lent::is_normal(word.as_ref())
}

/// The matrix (a b; c d) of a word, as [a, b, c, d]: of the two signs the one whose first non-zero entry among a, b is positive. Asks questions 8, 10, 12
/// and 16.
pub fn word_to_matrix(word: impl AsRef<[u8]>) -> Result<[i64; 4], Refusal> {
    let mut matrix = [0; 4];
    lent::word_to_matrix(word.as_ref(), &mut matrix)?;
    Ok(matrix)
}

/// The normal form of a matrix [a, b, c, d] of determinant 1, taken up to sign. Asks questions 5, 6 and 12.
pub fn matrix_to_word(matrix: [i64; 4]) -> Result<String, Refusal> {
    let mut out = [0; FORM];
    let length = lent::matrix_to_word(matrix, &mut out)?;
    Ok(text(&out[..length]))
}

/// The letters of the generators, one behind the other, and their ends.
fn joined(generators: &[impl AsRef<[u8]>]) -> (Vec<u8>, Vec<u16>) {
    let mut bytes = Vec::new();
    let mut ends = Vec::with_capacity(generators.len());
    for generator in generators {
        bytes.extend_from_slice(generator.as_ref());
        // An end that does not fit stands behind more than 4,096 letters: question 7 or 8 refuses before an end is looked at.
        ends.push(u16::try_from(bytes.len()).unwrap_or(u16::MAX));
    }
    (bytes, ends)
}

/// Is the target a product of at most n of the generators? A product has one factor or more: with n 0 the answer is none. Asks questions 7 to 13.
pub fn verdict(
    generators: &[impl AsRef<[u8]>],
    target: impl AsRef<[u8]>,
    n: u16,
) -> Result<Verdict, Refusal> {
    let target = target.as_ref();
    let (bytes, ends) = joined(generators);
    judged(|room| {
        lent::judge(
            &bytes,
            &ends,
            target,
            n,
            &mut room.first,
            &mut room.second,
            &mut room.witness,
        )
    })
}

/// Is the target a product of the generators, of however many? Factors are neither found nor counted, so what takes more of them than any n of `verdict` allows
/// is a yes too. A product has one factor or more: the empty word is a yes exactly where the list has a relation. Asks questions 7 to 12.
pub fn reachable(
    generators: &[impl AsRef<[u8]>],
    target: impl AsRef<[u8]>,
) -> Result<bool, Refusal> {
    let target = target.as_ref();
    let (bytes, ends) = joined(generators);
    Room::lend(|room| lent::reachable(&bytes, &ends, target, &mut room.first, &mut room.second))
}

/// Do the matrices modulo 7 show at once that the target is no product of the generators? True is the quick no: given exactly when the target's image, modulo 7
/// and up to sign one of 168, is not a product of one or more of the generators' images, so that an empty list always gets it. Then `verdict` and
/// `subgroup_verdict` say none for every n, and `reachable` says false, wherever they do not refuse. False leaves it open: the target may be a product or none.
/// Asks questions 7 to 12, and needs no tables.
///
/// ```
/// use kernelhop::{quick_no, reachable};
///
/// assert!(quick_no(&["SR"], "R")?);
/// // Open, though it is none: modulo 7 the inverse of SR is its 6th power.
/// assert!(!quick_no(&["SR"], "RSS")?);
/// assert!(!reachable(&["SR"], "RSS")?);
/// # Ok::<(), kernelhop::Refusal>(())
/// ```
pub fn quick_no(
    generators: &[impl AsRef<[u8]>],
    target: impl AsRef<[u8]>,
) -> Result<bool, Refusal> {
    let (bytes, ends) = joined(generators);
    lent::quick_no(&bytes, &ends, target.as_ref())
}

/// Is the target a product of at most n factors, each of them a generator or the inverse of one? So the list is taken as the subgroup that it generates, and no
/// inverse has to be typed; each factor counts as one. A product has one factor or more: the empty word is one of at most two, wherever there is a generator.
/// Asks questions 7 to 13, those about the list of the given generators only.
pub fn subgroup_verdict(
    generators: &[impl AsRef<[u8]>],
    target: impl AsRef<[u8]>,
    n: u16,
) -> Result<SubgroupVerdict, Refusal> {
    let target = target.as_ref();
    let (given, ends) = joined(generators);
    let mut inverses = vec![0; lent::INVERSES];
    Room::lend_signed(|room| {
        let judged = lent::judge_subgroup(
            &given,
            &ends,
            target,
            n,
            &mut room.first,
            &mut room.second,
            &mut room.witness,
            &mut inverses,
        )?;
        Ok(match judged {
            Judged::Member { count } => SubgroupVerdict::Member(SubgroupMember {
                factors: room.witness[..count]
                    .iter()
                    .copied()
                    .map(SignedFactor::from_written)
                    .collect(),
                given,
                ends,
                inverses,
            }),
            Judged::None { n } => SubgroupVerdict::None { n },
        })
    })
}

/// The verdict that a query card asks for. Asks questions 1 to 13.
pub fn answer_card(card: &[u8]) -> Result<Verdict, Refusal> {
    judged(|room| lent::answer_card(card, &mut room.first, &mut room.second, &mut room.witness))
}
