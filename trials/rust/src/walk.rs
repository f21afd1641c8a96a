//! A walk of the group: level by level, product by product.

use crate::element::Element;
use std::collections::HashMap;

/// Every element that at most n factors make, one or more, with its least series; of several the first when the factors' numbers are compared from left to
/// right.
///
/// A first series without its last factor is the first of its own product: an earlier one of as many factors would make an earlier one of the whole. So a level
/// that goes through the one before in the order of its first series, and through the factors in theirs, meets each element first by its first series, and the
/// elements in the order of these. The walk sets out from the identity, which no factor has made by then: it is found like any other element.
pub fn first_series(factors: &[Element], n: usize) -> HashMap<Element, Vec<u8>> {
    let numbered: Vec<_> = (0..).zip(factors.iter().copied()).collect();
    first_numbered(&numbered, n)
}

/// The number of an inverse factor is this and its generator's.
pub const INVERSE: u8 = 128;

/// The same where a factor may be a generator or its inverse, by the numbers as they are written.
pub fn first_signed_series(generators: &[Element], n: usize) -> HashMap<Element, Vec<u8>> {
    let inverses = generators.iter().map(|generator| generator.inverse());
    let numbered: Vec<_> = (0..)
        .zip(generators.iter().copied())
        .chain((INVERSE..).zip(inverses))
        .collect();
    first_numbered(&numbered, n)
}

/// The walk over factors that have numbers, in the order of these.
fn first_numbered(factors: &[(u8, Element)], n: usize) -> HashMap<Element, Vec<u8>> {
    let mut found = HashMap::new();
    let mut level = vec![(Element::ONE, Vec::new())];
    for _ in 0..n {
        let mut next = Vec::new();
        for (before, series) in level {
            for &(number, factor) in factors {
                let after = before.times(factor);
                found.entry(after).or_insert_with(|| {
                    let longer = [series.as_slice(), &[number]].concat();
                    next.push((after, longer.clone()));
                    longer
                });
            }
        }
        level = next;
    }
    found
}
