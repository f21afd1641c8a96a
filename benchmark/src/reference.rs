//! The bounded verdict in plain Rust, by the same method as the proved one: the questions, the reduced list, the tree of suffixes, the table of
//! pairs filled by levels, the target's rows, the witness chosen among the entries that the target needs, and the zeroing. What the proved one passes
//! over is passed over here too: rows without an entry of the level, a level that no entry lies above, rules that cannot lower anything, rows of choices
//! where nothing is to be done. The verdict without a bound, made of the same parts, is in `closing`, and the signed one in `signing`; the quick answer, which
//! shares only the questions and the reduced list, is in `residues`. It proves nothing; it is what the benchmark measures against.

mod closing;
mod residues;
mod signing;
mod witness;

pub use closing::reachable;
pub use residues::quick_no;
pub use signing::judge_signed;
use witness::Counts;

// Where a loop stands in the lines of the processor's cache moves its time by some percent. So the program is linked four times, with all functions from here on, the
// proved ones too, moved by so many bytes.
core::arch::global_asm!(
    ".section .text.kernelhop_shift, \"ax\"",
    ".globl kernelhop_shift",
    "kernelhop_shift:",
    "ret",
    concat!(
        ".skip ",
        env!("KERNELHOP_SHIFT", "benchmark/run says by how many bytes")
    ),
    ".text"
);

extern "C" {
    fn kernelhop_shift();
}

/// Does nothing; a function that nobody calls is not linked.
pub fn shift() {
    unsafe { kernelhop_shift() }
}

const R: u8 = b'R';
const S: u8 = b'S';

const GENERATORS: usize = 64;
const LIST_LETTERS: usize = 320;
const FORM: usize = 80;
const LETTERS: usize = 4096;
/// A list with its inverses behind it, which have half as many letters again and half a letter more for each generator.
const SIGNED_GENERATORS: usize = 2 * GENERATORS;
const SIGNED_LETTERS: usize = LIST_LETTERS + LIST_LETTERS * 3 / 2 + GENERATORS / 2;
const NODES: usize = SIGNED_LETTERS + 1;
const LARGEST_BOUND: u16 = 1000;

#[derive(Clone, Copy, Debug, PartialEq)]
pub enum Verdict {
    Member(u16),
    None,
}

/// The question's number and its place.
pub type Refusal = (u8, usize);

/// Writes the normal form to the front of `out`, and answers its length.
fn reduce(word: &[u8], out: &mut [u8]) -> usize {
    let mut len = 0;
    for &letter in word {
        if letter == R && len > 0 && out[len - 1] == R {
            len -= 1;
        } else if letter == S && len > 1 && out[len - 1] == S && out[len - 2] == S {
            len -= 2;
        } else {
            out[len] = letter;
            len += 1;
        }
    }
    len
}

/// Questions 7 to 10.
fn of_list(bytes: &[u8], ends: &[u16], target: &[u8]) -> Result<(), Refusal> {
    if ends.len() > GENERATORS {
        return Err((7, 0));
    }
    if bytes.len() > LETTERS || target.len() > LETTERS {
        return Err((8, 0));
    }
    if let Some(i) = ends.windows(2).position(|pair| pair[1] < pair[0]) {
        return Err((9, i + 1));
    }
    if ends.last().map_or(0, |&end| end as usize) != bytes.len() {
        return Err((9, ends.len()));
    }
    let other = |&letter: &u8| letter != R && letter != S;
    match bytes.iter().chain(target).position(other) {
        Some(place) => Err((10, place)),
        None => Ok(()),
    }
}

/// The generators reduced, one behind the other. There is room for their inverses too.
struct List {
    letters: [u8; SIGNED_LETTERS],
    len: usize,
    ends: [u16; SIGNED_GENERATORS],
    generators: usize,
}

impl List {
    fn push(&mut self, form: &[u8]) {
        let end = self.len + form.len();
        self.letters[self.len..end].copy_from_slice(form);
        self.len = end;
        self.ends[self.generators] = end as u16;
        self.generators += 1;
    }
}

/// Reduces the generators, which puts question 11.
fn reduce_list(bytes: &[u8], ends: &[u16]) -> Result<List, Refusal> {
    let mut list = List {
        letters: [0; SIGNED_LETTERS],
        len: 0,
        ends: [0; SIGNED_GENERATORS],
        generators: 0,
    };
    let mut form = [0; LETTERS];
    let mut from = 0;
    for (i, &end) in ends.iter().enumerate() {
        let len = reduce(&bytes[from..end as usize], &mut form);
        if len > FORM || list.len + len > LIST_LETTERS {
            return Err((11, i));
        }
        list.push(&form[..len]);
        from = end as usize;
    }
    Ok(list)
}

/// What a call about a list and a target begins with: both reduced.
struct Query {
    list: List,
    form: [u8; FORM],
    len: usize,
}

/// Puts questions 7 to 12.
fn pose(bytes: &[u8], ends: &[u16], target: &[u8]) -> Result<Query, Refusal> {
    of_list(bytes, ends, target)?;
    pose_reduced(reduce_list(bytes, ends)?, target)
}

/// Puts question 12.
fn pose_reduced(list: List, target: &[u8]) -> Result<Query, Refusal> {
    let mut letters = [0; LETTERS];
    let len = reduce(target, &mut letters);
    if len > FORM {
        return Err((12, 0));
    }
    let mut form = [0; FORM];
    form[..len].copy_from_slice(&letters[..len]);
    Ok(Query { list, form, len })
}

impl Query {
    fn form(&self) -> &[u8] {
        &self.form[..self.len]
    }

    fn tree(&self) -> Tree {
        let list = &self.list;
        Tree::build(&list.letters[..list.len], &list.ends[..list.generators])
    }

    /// How many entries of each table the call may write: q * q. Puts question 15.
    fn room(&self, first: &[u16], second: &[u16]) -> Result<usize, Refusal> {
        let q = self.list.len + 2 * self.len + 1;
        if first.len() < q * q || second.len() < q * q {
            return Err((15, 0));
        }
        Ok(q * q)
    }
}

/// The tree of suffixes. Node 0 is the empty word; as a child, 0 means that there is none.
struct Tree {
    letters: [u8; NODES],
    rests: [u16; NODES],
    children_r: [u16; NODES],
    children_s: [u16; NODES],
    wholes: [u16; SIGNED_GENERATORS],
    generators: usize,
    count: usize,
}

impl Tree {
    fn build(letters: &[u8], ends: &[u16]) -> Tree {
        let mut tree = Tree {
            letters: [0; NODES],
            rests: [0; NODES],
            children_r: [0; NODES],
            children_s: [0; NODES],
            wholes: [0; SIGNED_GENERATORS],
            generators: ends.len(),
            count: 1,
        };
        let mut from = 0;
        for (i, &end) in ends.iter().enumerate() {
            let mut node = 0;
            for &letter in letters[from..end as usize].iter().rev() {
                node = tree.child_made(node, letter);
            }
            tree.wholes[i] = node as u16;
            from = end as usize;
        }
        tree
    }

    fn child_made(&mut self, node: usize, letter: u8) -> usize {
        let children = if letter == R {
            &mut self.children_r
        } else {
            &mut self.children_s
        };
        if children[node] == 0 {
            children[node] = self.count as u16;
            self.letters[self.count] = letter;
            self.rests[self.count] = node as u16;
            self.count += 1;
        }
        children[node] as usize
    }

    fn children(&self, letter: u8) -> &[u16; NODES] {
        if letter == R {
            &self.children_r
        } else {
            &self.children_s
        }
    }

    fn child(&self, letter: u8, node: usize) -> Option<usize> {
        match self.children(letter)[node] {
            0 => None,
            child => Some(child as usize),
        }
    }

    /// The rest of the node's word, where it begins with the letter.
    fn rest(&self, letter: u8, node: usize) -> Option<usize> {
        (node != 0 && self.letters[node] == letter).then(|| self.rests[node] as usize)
    }

    fn wholes(&self) -> &[u16] {
        &self.wholes[..self.generators]
    }
}

fn lower(entry: &mut u16, value: u16) {
    if value < *entry {
        *entry = value;
    }
}

/// Whether there is such an entry. No early end, so that the loop runs on many entries at once.
fn has(entries: &[u16], such: impl Fn(u16) -> bool) -> bool {
    entries
        .iter()
        .fold(false, |found, &entry| found | such(entry))
}

/// Two different rows of the table, the first to be changed.
fn two_rows(table: &mut [u16], width: usize, x: usize, y: usize) -> (&mut [u16], &[u16]) {
    if x < y {
        let (low, high) = table.split_at_mut(y * width);
        (&mut low[x * width..(x + 1) * width], &high[..width])
    } else {
        let (low, high) = table.split_at_mut(x * width);
        (&mut high[..width], &low[y * width..(y + 1) * width])
    }
}

/// Relaxes the rules B to G in which the pair (x, y) is a premise; k is its entry. Inlined into `fill` its loops lose their registers, and the
/// whole verdict takes up to a quarter longer.
#[inline(never)]
fn relax_pair(tree: &Tree, table: &mut [u16], x: usize, y: usize, k: u16) {
    let width = tree.count;
    // F, with the pair first and with the pair second
    if x != y {
        let (to, from) = two_rows(table, width, x, y);
        for (to, &from) in to.iter_mut().zip(from) {
            *to = (*to).min(k + from);
        }
        for row in table.chunks_exact_mut(width) {
            let sum = k + row[x];
            lower(&mut row[y], sum);
        }
    }
    // B and G
    if let Some(a) = tree.child(R, x) {
        if let Some(b) = tree.rest(R, y) {
            lower(&mut table[a * width + b], k);
        }
        if let Some(b) = tree.child(R, y) {
            lower(&mut table[a * width + b], k);
        }
    }
    // C, D, G and E
    if let Some(a) = tree.child(S, x) {
        if let Some(b) = tree.child(S, y) {
            lower(&mut table[a * width + b], k);
        }
        if let Some(b) = tree.rest(S, y) {
            if let Some(aa) = tree.child(S, a) {
                lower(&mut table[aa * width + b], k);
            }
            if let Some(bb) = tree.rest(S, b) {
                lower(&mut table[a * width + bb], k);
            }
            for v in 0..width {
                if let Some(t) = tree.rest(S, v) {
                    let sum = k + table[b * width + v];
                    lower(&mut table[a * width + t], sum);
                    let sum = k + table[t * width + a];
                    lower(&mut table[v * width + b], sum);
                }
            }
        }
    }
}

/// Clears the table; rule A.
fn start(tree: &Tree, n: u16, table: &mut [u16]) {
    table.fill(n + 1);
    for &whole in tree.wholes() {
        lower(&mut table[whole as usize], 1);
    }
}

/// One pass over the pairs whose entry is k when their turn comes, from the first place to the last. Rows without such an entry are passed over.
fn pass(tree: &Tree, k: u16, table: &mut [u16], visit: impl Fn(&mut [u16], usize, usize)) {
    let width = tree.count;
    for x in 0..width {
        if !has(&table[x * width..(x + 1) * width], |entry| entry == k) {
            continue;
        }
        for y in 0..width {
            if table[x * width + y] == k {
                visit(table, x, y);
            }
        }
    }
}

/// Fills the table of pairs, up to the bound.
fn fill(tree: &Tree, n: u16, table: &mut [u16]) {
    start(tree, n, table);
    let mut k = 1;
    while k <= n && has(table, |entry| entry > k) {
        pass(tree, k, table, |table, x, y| {
            relax_pair(tree, table, x, y, k)
        });
        // Every entry is treated alike, so that this loop too runs on many at once.
        let above = |&entry: &u16| if entry > k { entry } else { n + 1 };
        k = table.iter().map(above).fold(n + 1, u16::min);
    }
}

/// Fills the rows of the target.
fn path(target: &[u8], tree: &Tree, n: u16, table: &[u16], rows: &mut [u16]) {
    let width = tree.count;
    rows[..width].copy_from_slice(&table[..width]);
    let mut first = [0; NODES];
    for (i, &letter) in target.iter().enumerate() {
        let (before, behind) = rows[i * width..].split_at_mut(width);
        let row = &mut behind[..width];
        for (v, &child) in tree.children(letter)[..width].iter().enumerate() {
            first[v] = if child == 0 {
                n + 1
            } else {
                before[child as usize]
            };
        }
        row.copy_from_slice(&first[..width]);
        for (&k, from) in first[..width].iter().zip(table.chunks_exact(width)) {
            if k <= n {
                for (to, &from) in row.iter_mut().zip(from) {
                    *to = (*to).min(k + from);
                }
            }
        }
    }
}

/// What stands at the end of the last row decides: of an empty target that is the pair of the empty word with itself, which has the least count of one factor
/// or more. The rows stand where the choices will; only where there is a series they are carried behind the pairs, without row 0, which is the first row of the
/// pairs.
fn search(
    query: &Query,
    n: u16,
    first: &mut [u16],
    second: &mut [u16],
    witness: Option<&mut [u8]>,
) -> Verdict {
    let (tree, form) = (query.tree(), query.form());
    let (pairs, behind) = first.split_at_mut(tree.count * tree.count);
    let rows = &mut second[..(form.len() + 1) * tree.count];
    fill(&tree, n, pairs);
    path(form, &tree, n, pairs, rows);
    let least = rows[form.len() * tree.count];
    if least > n {
        return Verdict::None;
    }
    let Some(witness) = witness else {
        return Verdict::Member(least);
    };
    let later = &rows[tree.count..];
    behind[..later.len()].copy_from_slice(later);
    let entries = pairs.len() + later.len();
    let counts = Counts {
        target: form,
        tree: &tree,
        counts: &first[..entries],
    };
    Verdict::Member(witness::write(&counts, &mut second[..entries], witness))
}

/// Questions 13 and 14.
fn of_bound(n: u16, witness: Option<&[u8]>) -> Result<(), Refusal> {
    if n > LARGEST_BOUND {
        return Err((13, 0));
    }
    if witness.is_some_and(|witness| witness.len() < n as usize) {
        return Err((14, 0));
    }
    Ok(())
}

/// The verdict on what has passed all questions, which lets `room` entries of each table be written.
fn settle(
    query: &Query,
    n: u16,
    first: &mut [u16],
    second: &mut [u16],
    witness: Option<&mut [u8]>,
    room: usize,
) -> Verdict {
    let verdict = search(query, n, first, second, witness);
    first[..room].fill(0);
    second[..room].fill(0);
    verdict
}

/// Without a witness only the verdict and the count are found.
pub fn judge(
    bytes: &[u8],
    ends: &[u16],
    target: &[u8],
    n: u16,
    first: &mut [u16],
    second: &mut [u16],
    witness: Option<&mut [u8]>,
) -> Result<Verdict, Refusal> {
    let query = pose(bytes, ends, target)?;
    of_bound(n, witness.as_deref())?;
    let room = query.room(first, second)?;
    Ok(settle(&query, n, first, second, witness, room))
}
