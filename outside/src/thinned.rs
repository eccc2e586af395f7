//! Rows of a table with bits taken away or added, for mending. Added bits are those of news, as the reader asks.

use plain::Array;

use crate::files::{flip_bit, has_bit, ROW};
use crate::random::Random;
use crate::tables::Rows;

/// Counts by what was done.
pub const SORTS: [&str; 6] = [
    "mending, rows as they came",
    "mending, rows that lost some bits",
    "mending, rows with one emptied",
    "mending, rows all emptied",
    "mending, rows that got some bits",
    "mending, rows that lost some bits and got some",
];

/// Changes the rows, and tells the count of what was done.
pub fn change(random: &mut Random, array: &Array, rows: &mut Rows) -> &'static str {
    let sort = random.below(SORTS.len());
    match sort {
        0 => {}
        1 => thin(random, array, rows),
        2 => empty_one(random, rows),
        3 => rows.fill([0; ROW]),
        4 => thicken(random, array, rows),
        _ => {
            thin(random, array, rows);
            thicken(random, array, rows);
        }
    }
    SORTS[sort]
}

/// Takes away a bit in two, in eight or in forty.
fn thin(random: &mut Random, array: &Array, rows: &mut Rows) {
    let rare = random.pick(&[2, 8, 40]);
    for row in rows {
        for o in array.opened().iter() {
            if has_bit(row, o) && random.once_in(rare) {
                flip_bit(row, o);
            }
        }
    }
}

fn empty_one(random: &mut Random, rows: &mut Rows) {
    let name = random.below(rows.len().max(1));
    if let Some(row) = rows.get_mut(name) {
        *row = [0; ROW];
    }
}

/// Adds one to four bits.
fn thicken(random: &mut Random, array: &Array, rows: &mut Rows) {
    let opened: Vec<usize> = array.opened().iter().collect();
    for _ in 0..random.between(1, 4) {
        let Some(o) = random.any(&opened) else { return };
        let name = random.below(rows.len());
        if !has_bit(&rows[name], o) {
            flip_bit(&mut rows[name], o);
        }
    }
}
