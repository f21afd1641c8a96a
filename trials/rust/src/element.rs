//! An element of the group as its matrix.

/// A matrix (a b; c d) of determinant 1, up to sign: of the two the one whose first non-zero entry among a, b is positive.
#[derive(Clone, Copy, Debug, PartialEq, Eq, Hash)]
pub struct Element([i64; 4]);

impl Element {
    pub const ONE: Element = Element([1, 0, 0, 1]);
    const R: Element = Element([0, -1, 1, 0]);
    const S: Element = Element([1, -1, 1, 0]);

    /// The element of a matrix of determinant 1.
    pub fn of_matrix(matrix: [i64; 4]) -> Element {
        let [a, b, c, d] = matrix;
        if a < 0 || (a == 0 && b < 0) {
            Element([-a, -b, -c, -d])
        } else {
            Element(matrix)
        }
    }

    /// The product of the letters' matrices.
    pub fn of_word(word: &[u8]) -> Element {
        word.iter().fold(Element::ONE, |product, letter| {
            product.times(match letter {
                b'R' => Element::R,
                b'S' => Element::S,
                other => panic!("{other} is no letter"),
            })
        })
    }

    /// Panics where an entry does not fit.
    pub fn times(self, other: Element) -> Element {
        let (Element([a, b, c, d]), Element([e, f, g, h])) = (self, other);
        let sum = |p: i64, q: i64, r: i64, s: i64| {
            let (first, second) = (p.checked_mul(q)?, r.checked_mul(s)?);
            first.checked_add(second)
        };
        let entries = [
            sum(a, e, b, g),
            sum(a, f, b, h),
            sum(c, e, d, g),
            sum(c, f, d, h),
        ];
        Element::of_matrix(entries.map(|entry| entry.expect("an entry of 64 bits")))
    }

    /// By the adjoint of its matrix.
    pub fn inverse(self) -> Element {
        let Element([a, b, c, d]) = self;
        Element::of_matrix([d, -b, -c, a])
    }

    pub fn matrix(self) -> [i64; 4] {
        self.0
    }
}
