//! Reduction with its counts, inversion, normality and matrices, exhaustively: every word of up to 12 letters and every matrix of determinant 1 with entries up to
//! 20. Prints what was tried, and `0 differ`; where something differs it prints the first of them and exits with 1.

use kernelhop::{invert, is_normal, matrix_to_word, reduce, word_to_matrix, Reduction};
use kernelhop_trials::{
    element::Element,
    erasing::{erased, inverse, normal_form},
    words::up_to,
};

const LETTERS: usize = 12;
const ENTRY: i64 = 20;

/// The normal form with the pairs and triples that went, whether the word is one, the inverse's, the matrix, and the word of that matrix.
fn word_is_right(word: &[u8]) -> bool {
    let left = erased(word);
    let form = text(left.form);
    let matrix = Element::of_word(word).matrix();
    let reduction = Reduction {
        word: form.clone(),
        pairs: left.pairs,
        triples: left.triples,
    };
    reduce(word) == Ok(reduction)
        && is_normal(word) == Ok(form.as_bytes() == word)
        && invert(word) == Ok(text(normal_form(&inverse(word))))
        && word_to_matrix(word) == Ok(matrix)
        && matrix_to_word(matrix) == Ok(form)
}

/// A word in normal form, whose letters multiply to the matrix up to sign, and back again.
fn matrix_is_right(matrix: [i64; 4]) -> bool {
    let element = Element::of_matrix(matrix);
    matrix_to_word(matrix).is_ok_and(|word| {
        normal_form(word.as_bytes()) == word.as_bytes()
            && Element::of_word(word.as_bytes()) == element
            && word_to_matrix(word) == Ok(element.matrix())
    })
}

fn text(word: Vec<u8>) -> String {
    String::from_utf8(word).expect("letters")
}

fn matrices() -> impl Iterator<Item = [i64; 4]> {
    let entries = || -ENTRY..=ENTRY;
    let all = entries().flat_map(move |a| {
        entries()
            .flat_map(move |b| entries().flat_map(move |c| entries().map(move |d| [a, b, c, d])))
    });
    all.filter(|[a, b, c, d]| a * d - b * c == 1)
}

fn main() {
    let words = up_to(LETTERS);
    let wrong: Vec<_> = words.iter().filter(|word| !word_is_right(word)).collect();
    println!(
        "words of up to {LETTERS} letters: {}, reduced and accounted for, tested, inverted, turned into matrices and back; {} differ",
        words.len(),
        wrong.len()
    );
    let tried = matrices().count();
    let wrong_matrices: Vec<_> = matrices()
        .filter(|&matrix| !matrix_is_right(matrix))
        .collect();
    println!(
        "matrices with entries up to {ENTRY}: {tried}, turned into words and back; {} differ",
        wrong_matrices.len()
    );
    let differ = wrong.len() + wrong_matrices.len();
    if differ > 0 {
        println!(
            "words {:?}, matrices {:?}",
            wrong.first(),
            wrong_matrices.first()
        );
    }
    println!("{differ} differ");
    if differ > 0 {
        std::process::exit(1);
    }
}
