//! The witness: of the least series that make the target, the first when generator numbers are compared from left to right. Which of the entries the target's
//! series may be made of is marked from the last row downwards; then a way is chosen for each of those, upwards, so that its parts have theirs. Two ways are
//! compared by spelling both at once.

use super::{Tree, LARGEST_BOUND, R, S};

/// What a series is made of, one behind the other: a factor, or an entry of the table of counts, by its row and its node. The numbers are as wide as the processor's:
/// smaller ones the compiler writes one by one and reads together, the processor waits for that, and the comparisons take nearly twice the time.
#[derive(Clone, Copy, PartialEq)]
enum Item {
    Factor(usize),
    Entry(usize, usize),
}

/// The parts of an entry in one way: one other that has the same series, or two items, one behind the other.
#[derive(Clone, Copy)]
enum Parts {
    One(Item),
    Two(Item, Item),
}

/// The counts, and what they are counts of: a row for each node of the tree, which are the pairs, and behind them the rows of the target, one for each letter.
/// The row before the letters is row 0, the pairs of the empty word.
pub struct Counts<'a> {
    pub target: &'a [u8],
    pub tree: &'a Tree,
    pub counts: &'a [u16],
}

impl Counts<'_> {
    fn rows(&self) -> usize {
        self.tree.count + self.target.len()
    }

    /// The row of the whole target.
    fn last(&self) -> usize {
        if self.target.is_empty() {
            0
        } else {
            self.rows() - 1
        }
    }

    fn at(&self, x: usize, y: usize) -> u16 {
        self.counts[x * self.tree.count + y]
    }

    /// The letter that leads to row x of the target from the row before it.
    fn letter_before(&self, x: usize) -> u8 {
        self.target[x - self.tree.count]
    }

    /// The row before row x of the target.
    fn row_before(&self, x: usize) -> usize {
        if x == self.tree.count {
            0
        } else {
            x - 1
        }
    }

    /// The pair that is the same element as (x, y), where x is not 0. The first letter falls away where both have it; else the letters that x begins with are
    /// carried over to y: R, two S's as one, one S as two.
    fn same_pair(&self, x: usize, y: usize) -> Option<Item> {
        let letter = self.tree.letters[x];
        let a = self.tree.rests[x] as usize;
        if let Some(b) = self.tree.rest(letter, y) {
            return Some(Item::Entry(a, b));
        }
        let b = self.tree.child(letter, y)?;
        if letter == R {
            return Some(Item::Entry(a, b));
        }
        match self.tree.rest(S, a) {
            Some(rest) => Some(Item::Entry(rest, b)),
            None => Some(Item::Entry(a, self.tree.child(S, b)?)),
        }
    }

    /// An entry that has the same series: where there is one nothing is to be chosen. Row x is not row 0.
    fn same(&self, x: usize, y: usize) -> Option<Item> {
        if x < self.tree.count {
            self.same_pair(x, y)
        } else {
            let child = self.tree.child(self.letter_before(x), y)?;
            Some(Item::Entry(self.row_before(x), child))
        }
    }

    /// In row 0: factor j comes first.
    fn by_factor(&self, y: usize, j: usize) -> Parts {
        if self.at(0, y) == 1 {
            Parts::One(Item::Factor(j))
        } else {
            Parts::Two(
                Item::Factor(j),
                Item::Entry(self.tree.wholes[j] as usize, y),
            )
        }
    }

    /// The parts of an entry in a way that `candidates` showed.
    fn parts(&self, x: usize, y: usize, way: usize) -> Parts {
        let width = self.tree.count;
        if x == 0 {
            return self.by_factor(y, way);
        }
        if let Some(same) = self.same(x, y) {
            return Parts::One(same);
        }
        if x >= width {
            let child = self.tree.children(self.letter_before(x))[way];
            return Parts::Two(
                Item::Entry(self.row_before(x), child as usize),
                Item::Entry(way, y),
            );
        }
        if way < width {
            return Parts::Two(Item::Entry(x, way), Item::Entry(way, y));
        }
        let v = way - width;
        let [a, w] = [x, v].map(|node| self.tree.rests[node] as usize);
        Parts::Two(
            Item::Entry(a, v),
            Item::Entry(w, self.tree.children_s[y] as usize),
        )
    }

    /// Shows each way of an entry whose parts have as many factors together as the entry says.
    fn candidates(&self, x: usize, y: usize, mut show: impl FnMut(usize, Parts)) {
        if x == 0 {
            let j = self.first_factor(y);
            show(j, self.by_factor(y, j));
        } else if let Some(same) = self.same(x, y) {
            show(0, Parts::One(same));
        } else if x >= self.tree.count {
            self.row_candidates(x, y, show);
        } else {
            self.candidates_over_nodes(x, y, &mut show);
            self.candidates_by_triples(x, y, &mut show);
        }
    }

    /// In row 0 the first factor decides.
    fn first_factor(&self, y: usize) -> usize {
        let k = self.at(0, y);
        let begins = |&whole: &u16| match k {
            1 => whole as usize == y,
            _ => 1 + self.at(whole as usize, y) == k,
        };
        let first = self.tree.wholes().iter().position(begins);
        first.expect("each entry is attained")
    }

    /// A row of the target: the letter is read at v, and the pair (v, y) follows.
    fn row_candidates(&self, x: usize, y: usize, mut show: impl FnMut(usize, Parts)) {
        let k = self.at(x, y);
        let before = self.row_before(x);
        let children = self.tree.children(self.letter_before(x));
        for (v, &child) in children[..self.tree.count].iter().enumerate() {
            let child = child as usize;
            if child != 0 && self.at(before, child) + self.at(v, y) == k {
                show(v, Parts::Two(Item::Entry(before, child), Item::Entry(v, y)));
            }
        }
    }

    /// Rule F through v, only where the first letter of x can stand before v: there x is used up for the first time.
    fn candidates_over_nodes(&self, x: usize, y: usize, mut show: impl FnMut(usize, Parts)) {
        let k = self.at(x, y);
        let children = self.tree.children(self.tree.letters[x]);
        for (v, &child) in children[..self.tree.count].iter().enumerate() {
            if child != 0 && self.at(x, v) + self.at(v, y) == k {
                show(v, Parts::Two(Item::Entry(x, v), Item::Entry(v, y)));
            }
        }
    }

    /// Rule E, where x begins with a single S.
    fn candidates_by_triples(&self, x: usize, y: usize, mut show: impl FnMut(usize, Parts)) {
        let k = self.at(x, y);
        let width = self.tree.count;
        let single = |&a: &usize| self.tree.rest(S, a).is_none();
        let Some(a) = self.tree.rest(S, x).filter(single) else {
            return;
        };
        let Some(b) = self.tree.child(S, y) else {
            return;
        };
        for v in 0..width {
            if let Some(w) = self.tree.rest(S, v) {
                if self.at(a, v) + self.at(w, b) == k {
                    show(width + v, Parts::Two(Item::Entry(a, v), Item::Entry(w, b)));
                }
            }
        }
    }
}

/// What stands in the table of choices, besides ways, which are written as 1 more: the entry is not needed, or it is, or the parts of its candidates are needed too.
const IDLE: u16 = 0;
const NEEDED: u16 = 65535;
const MARKED: u16 = 65534;

fn need(width: usize, choices: &mut [u16], item: Item) {
    if let Item::Entry(x, y) = item {
        let choice = &mut choices[x * width + y];
        if *choice == IDLE {
            *choice = NEEDED;
        }
    }
}

/// How many places of the table a sweep looks at together, before it looks at each.
const BLOCK: usize = 256;

/// Whether some choice is in that state where the count is k.
fn has_due(choices: &[u16], counts: &[u16], state: u16, k: u16) -> bool {
    choices
        .iter()
        .zip(counts)
        .fold(false, |due, (&choice, &count)| {
            due | ((choice == state) & (count == k))
        })
}

/// The row of a place, carried along from another.
fn row_of(place: usize, mut row: usize, width: usize) -> usize {
    let mut start = row * width;
    while start + width <= place {
        start += width;
        row += 1;
    }
    while place < start {
        start -= width;
        row -= 1;
    }
    row
}

/// Marks all that the needed entries need. Parts have fewer factors, or as many and stand in a row above.
fn mark_all(counts: &Counts, choices: &mut [u16], most: u16) {
    let width = counts.tree.count;
    let end = counts.rows() * width;
    for k in (1..=most).rev() {
        let mut x = counts.rows() - 1;
        for from in (0..end).step_by(BLOCK).rev() {
            let block = from..end.min(from + BLOCK);
            if !has_due(
                &choices[block.clone()],
                &counts.counts[block.clone()],
                NEEDED,
                k,
            ) {
                continue;
            }
            for place in block.rev() {
                if choices[place] == NEEDED && counts.counts[place] == k {
                    x = row_of(place, x, width);
                    let y = place - x * width;
                    choices[place] = MARKED;
                    counts.candidates(x, y, |_, parts| match parts {
                        Parts::One(item) => need(width, choices, item),
                        Parts::Two(front, behind) => {
                            need(width, choices, front);
                            need(width, choices, behind);
                        }
                    });
                }
            }
        }
    }
}

/// The items that are still to be spelled, the next on top.
struct Stack {
    items: [Item; LARGEST_BOUND as usize],
    height: usize,
}

impl Stack {
    fn new() -> Stack {
        Stack {
            items: [Item::Factor(0); LARGEST_BOUND as usize],
            height: 0,
        }
    }

    fn push(&mut self, item: Item) {
        self.items[self.height] = item;
        self.height += 1;
    }

    fn push_parts(&mut self, parts: Parts) {
        match parts {
            Parts::One(item) => self.push(item),
            Parts::Two(front, behind) => {
                self.push(behind);
                self.push(front);
            }
        }
    }

    fn top(&self) -> Option<Item> {
        self.items[..self.height].last().copied()
    }

    fn pop(&mut self) {
        self.height -= 1;
    }

    /// The entry on top gives way to its parts.
    fn take_apart(&mut self, counts: &Counts, choices: &[u16], x: usize, y: usize) {
        let way = choices[x * counts.tree.count + y] as usize - 1;
        self.pop();
        self.push_parts(counts.parts(x, y, way));
    }
}

/// Whether the one spells a series that comes before the other's, which has as many factors. What is the same on both is dropped; of two different items the
/// larger is taken apart.
fn is_before(counts: &Counts, choices: &[u16], one: &mut Stack, other: &mut Stack) -> bool {
    while let (Some(mine), Some(theirs)) = (one.top(), other.top()) {
        if mine == theirs {
            one.pop();
            other.pop();
            continue;
        }
        match (mine, theirs) {
            (Item::Factor(i), Item::Factor(j)) => return i < j,
            (Item::Entry(x, y), Item::Factor(_)) => one.take_apart(counts, choices, x, y),
            (Item::Factor(_), Item::Entry(u, v)) => other.take_apart(counts, choices, u, v),
            (Item::Entry(x, y), Item::Entry(u, v)) => {
                if counts.at(u, v) <= counts.at(x, y) {
                    one.take_apart(counts, choices, x, y);
                } else {
                    other.take_apart(counts, choices, u, v);
                }
            }
        }
    }
    false
}

/// The way whose series comes first.
fn best_way(
    counts: &Counts,
    choices: &[u16],
    x: usize,
    y: usize,
    one: &mut Stack,
    other: &mut Stack,
) -> usize {
    let mut best: Option<(usize, Parts)> = None;
    counts.candidates(x, y, |way, parts| {
        if let Some((_, rival)) = best {
            one.height = 0;
            one.push_parts(parts);
            other.height = 0;
            other.push_parts(rival);
            if !is_before(counts, choices, one, other) {
                return;
            }
        }
        best = Some((way, parts));
    });
    best.expect("each entry is attained").0
}

/// Chooses a way for each entry that is marked.
fn choose_all(counts: &Counts, choices: &mut [u16], most: u16, one: &mut Stack, other: &mut Stack) {
    let width = counts.tree.count;
    let end = counts.rows() * width;
    for k in 1..=most {
        let mut x = 0;
        for from in (0..end).step_by(BLOCK) {
            let block = from..end.min(from + BLOCK);
            if !has_due(
                &choices[block.clone()],
                &counts.counts[block.clone()],
                MARKED,
                k,
            ) {
                continue;
            }
            for place in block {
                if choices[place] == MARKED && counts.counts[place] == k {
                    x = row_of(place, x, width);
                    let y = place - x * width;
                    choices[place] = best_way(counts, choices, x, y, one, other) as u16 + 1;
                }
            }
        }
    }
}

/// Writes what the stack spells, and answers how many factors it has.
fn spell(counts: &Counts, choices: &[u16], stack: &mut Stack, witness: &mut [u8]) -> u16 {
    let mut written = 0;
    while let Some(item) = stack.top() {
        match item {
            Item::Factor(j) => {
                stack.pop();
                witness[written] = j as u8;
                written += 1;
            }
            Item::Entry(x, y) => stack.take_apart(counts, choices, x, y),
        }
    }
    written as u16
}

/// Writes the factors of the first of the least series, and answers how many they are. The choices are made in a table of the counts' size.
pub fn write(counts: &Counts, choices: &mut [u16], witness: &mut [u8]) -> u16 {
    let last = counts.last();
    let most = counts.at(last, 0);
    let (mut one, mut other) = (Stack::new(), Stack::new());
    choices.fill(IDLE);
    choices[last * counts.tree.count] = NEEDED;
    mark_all(counts, choices, most);
    choose_all(counts, choices, most, &mut one, &mut other);
    one.height = 0;
    one.push(Item::Entry(last, 0));
    spell(counts, choices, &mut one, witness)
}
