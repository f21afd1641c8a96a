//! The quick answer: the generators' images modulo 7 are multiplied until the target's image is a product of them, or nothing is new. Nothing is lent for it.

use super::{pose, List, Refusal, GENERATORS, R};

/// The entries of a matrix modulo 7. Its rank is the number that they are in base 7, so that a smaller quadruple has a smaller one.
type Matrix = [usize; 4];

const fn rank([a, b, c, d]: Matrix) -> usize {
    ((a * 7 + b) * 7 + c) * 7 + d
}

const fn negated(entry: usize) -> usize {
    (7 - entry) % 7
}

/// The rank of the sign that is kept.
const fn smaller_rank([a, b, c, d]: Matrix) -> usize {
    let one = rank([a, b, c, d]);
    let other = rank([negated(a), negated(b), negated(c), negated(d)]);
    if one < other {
        one
    } else {
        other
    }
}

/// How many matrices of determinant 1 there are, up to sign.
const MATRICES: usize = 168;

/// These, in rising order: the place of a matrix is its number.
const fn matrices() -> [Matrix; MATRICES] {
    let mut matrices = [[0; 4]; MATRICES];
    let mut count = 0;
    let mut i = 0;
    while i < 7 * 7 * 7 * 7 {
        let [a, b, c, d] = [i / 343, i / 49 % 7, i / 7 % 7, i % 7];
        if (a * d) % 7 == (b * c + 1) % 7 && smaller_rank([a, b, c, d]) == i {
            matrices[count] = [a, b, c, d];
            count += 1;
        }
        i += 1;
    }
    assert!(count == MATRICES);
    matrices
}

const ALL: [Matrix; MATRICES] = matrices();

const fn number(matrix: Matrix) -> u8 {
    let mut k = 0;
    while rank(ALL[k]) != smaller_rank(matrix) {
        k += 1;
    }
    k as u8
}

const UNIT: u8 = number([1, 0, 0, 1]);

/// The numbers of each matrix times R and times S.
const fn products() -> [[u8; 2]; MATRICES] {
    let mut products = [[0; 2]; MATRICES];
    let mut k = 0;
    while k < MATRICES {
        let [a, b, c, d] = ALL[k];
        let times_r = [b, negated(a), d, negated(c)];
        let times_s = [(a + b) % 7, negated(a), (c + d) % 7, negated(c)];
        products[k] = [number(times_r), number(times_s)];
        k += 1;
    }
    products
}

static PRODUCTS: [[u8; 2]; MATRICES] = products();

/// A matrix of the tree that has the unit as its root: the matrix that it is a product of, and 0 for R or 1 for S.
#[derive(Clone, Copy)]
struct Step {
    parent: u8,
    letter: u8,
}

/// All matrices but the unit, breadth first: each stands behind its parent.
const fn tree() -> [Step; MATRICES - 1] {
    let unit = Step {
        parent: UNIT,
        letter: 0,
    };
    let mut tree = [unit; MATRICES - 1];
    let mut queue = [UNIT; MATRICES];
    let mut known = [false; MATRICES];
    known[UNIT as usize] = true;
    let mut count = 1;
    let mut i = 0;
    while i < 2 * MATRICES {
        let (parent, letter) = (queue[i / 2], i % 2);
        let child = PRODUCTS[parent as usize][letter];
        if !known[child as usize] {
            known[child as usize] = true;
            queue[count] = child;
            tree[count - 1] = Step {
                parent,
                letter: letter as u8,
            };
            count += 1;
        }
        i += 1;
    }
    assert!(count == MATRICES);
    tree
}

static TREE: [Step; MATRICES - 1] = tree();

fn times(k: u8, letter: usize) -> u8 {
    PRODUCTS[k as usize][letter]
}

fn image(word: &[u8]) -> u8 {
    let letters = word.iter().map(|&letter| usize::from(letter != R));
    letters.fold(UNIT, times)
}

/// The products of an image with all matrices on its right, in the order of their numbers.
type Row = [u8; MATRICES];

/// Each takes one letter more than one that is there already.
fn fill_row(image: u8, row: &mut Row) {
    row[UNIT as usize] = image;
    for step in &TREE {
        let letter = step.letter as usize;
        let child = times(step.parent, letter);
        row[child as usize] = times(row[step.parent as usize], letter);
    }
}

/// The products of the images taken in: they are marked, and stand in the queue.
struct Products {
    rows: [Row; GENERATORS],
    taken: usize,
    marked: [bool; MATRICES],
    queue: [u8; MATRICES],
    count: usize,
}

impl Products {
    fn has(&self, image: u8) -> bool {
        self.marked[image as usize]
    }

    fn mark(&mut self, image: u8) {
        if !self.has(image) {
            self.marked[image as usize] = true;
            self.queue[self.count] = image;
            self.count += 1;
        }
    }

    /// Takes an image in, unless it is a product already. What stood in the queue before was multiplied by all images but this one.
    fn take_in(&mut self, image: u8, target: u8) {
        if self.has(image) {
            return;
        }
        let (old, last) = (self.count, self.taken);
        fill_row(image, &mut self.rows[last]);
        self.taken += 1;
        self.mark(image);
        let mut i = 0;
        while i < self.count && !self.has(target) {
            let k = self.queue[i] as usize;
            let from = if i < old { last } else { 0 };
            for b in from..self.taken {
                self.mark(self.rows[b][k]);
            }
            i += 1;
        }
    }
}

/// Whether the target's image is a product of the generators' images.
fn is_product(list: &List, target: u8) -> bool {
    let mut products = Products {
        rows: [[0; MATRICES]; GENERATORS],
        taken: 0,
        marked: [false; MATRICES],
        queue: [0; MATRICES],
        count: 0,
    };
    let mut from = 0;
    for &end in &list.ends[..list.generators] {
        if products.has(target) {
            break;
        }
        products.take_in(image(&list.letters[from..end as usize]), target);
        from = end as usize;
    }
    products.has(target)
}

pub fn quick_no(bytes: &[u8], ends: &[u16], target: &[u8]) -> Result<bool, Refusal> {
    let query = pose(bytes, ends, target)?;
    Ok(!is_product(&query.list, image(target)))
}
