//! The lift route, and its trail.

use std::array;
use std::hint::select_unpredictable;

use super::{label, log2};

/// Pairs that the lift route takes at once: their loads don't wait for one another.
pub const AT_ONCE: usize = 10;

/// The carrier of each pair and its branches, by the lift table and LEVEL.
pub fn answer(rows: &[u16], level: &[u16], pairs: &[[u16; 2]], answer: &mut [[u16; 3]]) {
    let ((groups, pairs), (answers, cells)) = (pairs.as_chunks(), answer.as_chunks_mut());
    for (group, answer) in groups.iter().zip(answers) {
        raise::<AT_ONCE>(rows, level, group, answer);
    }
    for (pair, cells) in pairs.iter().zip(cells) {
        raise(rows, level, array::from_ref(pair), array::from_mut(cells));
    }
}

/// The rows that can change an answer: those that pass the deepest level raise every part to the root.
pub fn rows<'a>(lift: &'a [u16], label: &[u16], n: usize) -> &'a [u16] {
    let deepest = label::deepest(label, n) as usize;
    &lift[..n * (log2(deepest) + 1).min(log2(n) + 1)]
}

/// The carriers of P pairs by lifts and their branches, each row looked into once for each phase. Parts are words of 32 bits, which are
/// chosen and indexed by without further steps.
#[inline(always)]
pub fn raise<const P: usize>(
    rows: &[u16],
    level: &[u16],
    pairs: &[[u16; 2]; P],
    answer: &mut [[u16; 3]; P],
) {
    let n = level.len();
    let [mut deeper, mut other, mut gap] = [[0; P]; 3];
    for i in 0..P {
        let ([x, y], [a, b]) = (pairs[i].map(u32::from), pairs[i].map(|x| level[x as usize]));
        deeper[i] = select_unpredictable(a < b, y, x);
        other[i] = select_unpredictable(a < b, x, y);
        gap[i] = a.abs_diff(b) as u32;
    }
    let below = level_up(rows, n, &gap, &mut deeper);
    meet(rows, n, &mut deeper, &mut other);
    for i in 0..P {
        let (x, y) = (deeper[i], other[i]);
        let up = rows[x as usize];
        let carrier = select_unpredictable(x == y, x as u16, up);
        let (x, y) = (select_unpredictable(x == y, below[i], x) as u16, y as u16);
        let [a, b] = pairs[i].map(|x| level[x as usize]);
        answer[i] = [
            carrier,
            select_unpredictable(a < b, y, x),
            select_unpredictable(a < b, x, y),
        ];
    }
}

/// Raises the deeper parts by the gaps. Gives what they were one step before: the branch, where the other part is the carrier.
#[inline(always)]
fn level_up<const P: usize>(
    rows: &[u16],
    n: usize,
    gap: &[u32; P],
    deeper: &mut [u32; P],
) -> [u32; P] {
    let but_one = gap.map(|gap| gap.saturating_sub(1));
    for (k, row) in rows.chunks_exact(n).enumerate() {
        for i in 0..P {
            let up = row[deeper[i] as usize] as u32;
            deeper[i] = select_unpredictable(but_one[i] >> (k % 16) & 1 == 1, up, deeper[i]);
        }
    }
    let below = *deeper;
    for i in 0..P {
        let up = rows[deeper[i] as usize] as u32;
        deeper[i] = select_unpredictable(gap[i] != 0, up, deeper[i]);
    }
    below
}

/// Raises both parts of each pair until they are the carrier's branches. Those that are one part already stay.
#[inline(always)]
fn meet<const P: usize>(rows: &[u16], n: usize, deeper: &mut [u32; P], other: &mut [u32; P]) {
    for row in rows.chunks_exact(n).rev() {
        for i in 0..P {
            let (x, y) = (deeper[i], other[i]);
            let (up_x, up_y) = (row[x as usize] as u32, row[y as usize] as u32);
            deeper[i] = select_unpredictable(up_x != up_y, up_x, x);
            other[i] = select_unpredictable(up_x != up_y, up_y, y);
        }
    }
}

/// Follows the lift route and writes a row for each lift.
pub fn traced(lift: &[u16], level: &[u16], x: u16, y: u16, rows: &mut [u16]) -> (u16, u64) {
    let n = level.len();
    let (mut x, mut y) = (x, y);
    let mut lifts = 0;
    let mut cells = rows.chunks_exact_mut(2);
    let mut note = |x: u16, y: u16| {
        if let Some(row) = cells.next() {
            row.copy_from_slice(&[x, y]);
        }
        lifts += 1;
    };
    let (lx, ly) = (level[x as usize], level[y as usize]);
    for (k, row) in lift.chunks_exact(n).enumerate().rev() {
        if lx.abs_diff(ly) >> k & 1 == 1 {
            let deeper = if lx > ly { &mut x } else { &mut y };
            *deeper = row[*deeper as usize];
            note(x, y);
        }
    }
    if x != y {
        for row in lift.chunks_exact(n).rev() {
            let (up_x, up_y) = (row[x as usize], row[y as usize]);
            if up_x != up_y {
                (x, y) = (up_x, up_y);
                note(x, y);
            }
        }
        (x, y) = (lift[x as usize], lift[y as usize]);
        note(x, y);
    }
    (x, lifts)
}
