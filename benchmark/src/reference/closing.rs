//! The verdict without a bound: the table of yes and no, the target's rows over it, and what stands at the end of the last row. Nothing is counted, and no
//! series is written.

use super::{has, pass, path, pose, relax_pair, start, Query, Refusal, Tree};

/// The entry of a pair that is led to: its rules are used, or are yet to be used. Until then it is one more: so the parts of the bounded verdict serve, with
/// the bound 1.
const USED: u16 = 0;
const FRESH: u16 = 1;

/// Fills the table: each pair's rules are used once.
fn close(tree: &Tree, table: &mut [u16]) {
    start(tree, FRESH, table);
    while has(table, |entry| entry == FRESH) {
        pass(tree, FRESH, table, |table, x, y| {
            table[x * tree.count + y] = USED;
            relax_pair(tree, table, x, y, FRESH);
        });
    }
}

/// Whether the target is a product.
fn decide(query: &Query, first: &mut [u16], second: &mut [u16]) -> bool {
    let (tree, form) = (query.tree(), query.form());
    let pairs = &mut first[..tree.count * tree.count];
    let rows = &mut second[..(form.len() + 1) * tree.count];
    close(&tree, pairs);
    path(form, &tree, FRESH, pairs, rows);
    rows[form.len() * tree.count] == USED
}

pub fn reachable(
    bytes: &[u8],
    ends: &[u16],
    target: &[u8],
    first: &mut [u16],
    second: &mut [u16],
) -> Result<bool, Refusal> {
    let query = pose(bytes, ends, target)?;
    let room = query.room(first, second)?;
    let yes = decide(&query, first, second);
    first[..room].fill(0);
    second[..room].fill(0);
    Ok(yes)
}
