//! The signed verdict: the list is taken with its generators' inverses behind it, and the factors that are found there are written by signed numbers.

use super::{
    of_bound, of_list, pose_reduced, reduce, reduce_list, settle, List, Refusal, Verdict, FORM, R,
    S,
};

/// The bytes that question 14 asks of the inverse slice.
const INVERSES: usize = 640;

/// What an inverse's number has before the generator's.
const INVERSE: u8 = 128;

/// Writes the normal form of the inverse to the front of `out`, and answers its length.
fn invert(word: &[u8], out: &mut [u8]) -> usize {
    let mut inverse = [0; 2 * FORM];
    let mut len = 0;
    for &letter in word.iter().rev() {
        if letter == R {
            inverse[len] = R;
            len += 1;
        } else {
            inverse[len..len + 2].fill(S);
            len += 2;
        }
    }
    reduce(&inverse[..len], out)
}

/// Writes the inverses of the generators behind them.
fn push_inverses(list: &mut List) {
    let mut form = [0; 2 * FORM];
    let mut from = 0;
    for i in 0..list.generators {
        let end = list.ends[i] as usize;
        let len = invert(&list.letters[from..end], &mut form);
        list.push(&form[..len]);
        from = end;
    }
}

#[allow(clippy::too_many_arguments)]
pub fn judge_signed(
    bytes: &[u8],
    ends: &[u16],
    target: &[u8],
    n: u16,
    first: &mut [u16],
    second: &mut [u16],
    witness: &mut [u8],
    inverses: &mut [u8],
) -> Result<Verdict, Refusal> {
    of_list(bytes, ends, target)?;
    let mut list = reduce_list(bytes, ends)?;
    let given = list.len;
    push_inverses(&mut list);
    let query = pose_reduced(list, target)?;
    of_bound(n, Some(witness))?;
    if inverses.len() < INVERSES {
        return Err((14, 0));
    }
    let room = query.room(first, second)?;
    let verdict = settle(&query, n, first, second, Some(witness), room);
    if let Verdict::Member(count) = verdict {
        let generators = ends.len() as u8;
        for number in &mut witness[..count as usize] {
            if *number >= generators {
                *number = INVERSE + (*number - generators);
            }
        }
    }
    let list = &query.list;
    inverses[..list.len - given].copy_from_slice(&list.letters[given..list.len]);
    Ok(verdict)
}
