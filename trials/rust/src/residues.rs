//! Elements modulo 7, and what the products of a list leave there.

use crate::element::Element;
use std::collections::HashSet;

const MODULUS: i64 = 7;

/// A matrix modulo 7, up to sign: of the two the smaller one, with entries 0 to 6.
#[derive(Clone, Copy, Debug, PartialEq, Eq, Hash)]
pub struct Residue([i64; 4]);

impl Residue {
    fn of_matrix(matrix: [i64; 4]) -> Residue {
        let one = matrix.map(|entry| entry.rem_euclid(MODULUS));
        let other = matrix.map(|entry| (-entry).rem_euclid(MODULUS));
        Residue(one.min(other))
    }

    pub fn of(element: Element) -> Residue {
        Residue::of_matrix(element.matrix())
    }

    fn times(self, other: Residue) -> Residue {
        let (Residue([a, b, c, d]), Residue([e, f, g, h])) = (self, other);
        Residue::of_matrix([a * e + b * g, a * f + b * h, c * e + d * g, c * f + d * h])
    }
}

/// The images of all products of one generator or more: those of longer products are made from those of shorter ones, until none is new.
pub fn images(generators: &[Element]) -> HashSet<Residue> {
    let factors: HashSet<_> = generators.iter().copied().map(Residue::of).collect();
    let mut found = factors.clone();
    let mut fresh: Vec<_> = factors.iter().copied().collect();
    while let Some(before) = fresh.pop() {
        for &factor in &factors {
            let after = before.times(factor);
            if found.insert(after) {
                fresh.push(after);
            }
        }
    }
    found
}
