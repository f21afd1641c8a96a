//! Reduction by erasing.

/// What is left of a word, and how many RR and how many SSS were erased.
pub struct Erased {
    pub form: Vec<u8>,
    pub pairs: usize,
    pub triples: usize,
}

/// The first RR or SSS is erased, until there is none, and each is counted when it goes.
pub fn erased(word: &[u8]) -> Erased {
    let mut left = Erased {
        form: word.to_vec(),
        pairs: 0,
        triples: 0,
    };
    while let Some((at, rule)) = first_rule(&left.form) {
        left.form.drain(at..at + rule.len());
        match rule {
            "RR" => left.pairs += 1,
            _ => left.triples += 1,
        }
    }
    left
}

/// Where the first RR or SSS stands, and which of the two it is.
fn first_rule(word: &[u8]) -> Option<(usize, &'static str)> {
    (0..word.len()).find_map(|at| match word[at..] {
        [b'R', b'R', ..] => Some((at, "RR")),
        [b'S', b'S', b'S', ..] => Some((at, "SSS")),
        _ => None,
    })
}

pub fn normal_form(word: &[u8]) -> Vec<u8> {
    erased(word).form
}

/// The inverse of R is R and of S is SS, in reverse order. Not reduced.
pub fn inverse(word: &[u8]) -> Vec<u8> {
    let inverses = word.iter().rev().map(|letter| match letter {
        b'R' => "R",
        b'S' => "SS",
        other => panic!("{other} is no letter"),
    });
    inverses.collect::<String>().into_bytes()
}
