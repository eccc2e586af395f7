//! What a mended table must be beside the given one, by the words of the request, and the counts of what was met.

use plain::Array;

use crate::files::{flip_bit, has_bit, repair, TableFile, ROW};
use crate::tables::{live, own_rows, Pair, Rows};
use crate::tally::Tally;
use crate::view::View;

/// Rounds that only a long way of bits takes.
const MANY_ROUNDS: usize = 200;
/// What 128 news and 128 parameters can lack.
const MOST_BITS: usize = 128 + 128 * 128;

/// Rows that contain the given ones and meet rules 1 and 3 under the table's balances, of which each bit is asked for.
pub struct Smallest {
    pub rows: Rows,
    /// After rule 1: in each round all bits that rule 3 asks for by then are set at once.
    pub rounds: usize,
    /// The rows after rule 1.
    first: Rows,
}

impl Smallest {
    pub fn of(array: &Array, table: &TableFile) -> Smallest {
        let mut first = table.rows.clone();
        first.iter_mut().zip(own_rows(array)).for_each(|(row, own)| join(row, &own));
        let meeting = live(array, &vec![[u8::MAX; ROW]; array.names()], &table.balances);
        let (mut rows, mut rounds) = (first.clone(), 0);
        loop {
            let next = round(array, &rows, &meeting);
            if next == rows {
                return Smallest { rows, rounds, first };
            }
            (rows, rounds) = (next, rounds + 1);
        }
    }
}

/// The rows with all that the pairs ask for which share a bit by now. Arities agree and balances allow all of these.
fn round(array: &Array, rows: &Rows, meeting: &[Pair]) -> Rows {
    let mut next = rows.clone();
    for (p, q) in meeting {
        let (receiver, sender) = (&array.nodes()[*p], &array.nodes()[*q]);
        if rows[receiver.name].iter().zip(rows[sender.name]).any(|(one, other)| one & other != 0) {
            let matching = receiver.arguments.iter().zip(&sender.arguments);
            matching.for_each(|(to, from)| join(&mut next[*to], &rows[*from]));
        }
    }
    next
}

fn join(row: &mut [u8; ROW], more: &[u8; ROW]) {
    row.iter_mut().zip(more).for_each(|(to, from)| *to |= from);
}

fn count_bits(bytes: &[u8]) -> usize {
    bytes.iter().map(|byte| byte.count_ones() as usize).sum()
}

/// The bytes of a table that mending leaves alone: all but the rows and the word sum.
fn left_alone(names: usize, table: &[u8]) -> [&[u8]; 2] {
    let sum = table.len() - 8;
    [&table[ROW * names..sum], &table[sum + 4..]]
}

/// What is wrong with a mended table, if anything is.
pub fn fault(names: usize, given: &[u8], mended: &[u8], bits: usize, smallest: &Smallest) -> Option<&'static str> {
    let [before, after] = [given, mended].map(|table| &table[..ROW * names]);
    let kept = before.iter().zip(after).all(|(one, other)| one & !other == 0);
    let right = [
        (kept, "a given bit is gone"),
        (count_bits(after) - count_bits(before) == bits, "the number of bits is another"),
        (left_alone(names, given) == left_alone(names, mended), "a byte outside the rows and the word sum changed"),
        (bits > 0 || given == mended, "no bit was missing, and the table changed"),
        (after == smallest.rows.concat(), "the rows are not the smallest"),
    ];
    right.into_iter().find(|(right, _)| !right).map(|(_, what)| what)
}

/// The bits of the mended rows that the given ones lack, by name and number.
pub fn bits_set(given: &Rows, mended: &Rows) -> Vec<(usize, usize)> {
    let of_row = |name: usize| (0..8 * ROW).map(move |o| (name, o));
    let set = |(name, o): &(usize, usize)| has_bit(&mended[*name], *o) && !has_bit(&given[*name], *o);
    (0..mended.len()).flat_map(of_row).filter(set).collect()
}

/// A table file with one bit less.
pub fn without(table: &[u8], (name, o): (usize, usize)) -> Vec<u8> {
    let mut table = table.to_vec();
    flip_bit(&mut table[ROW * name..], o);
    repair(&mut table);
    table
}

/// One mending: the table as it came and as it is, and what `check` said of both.
pub struct Case<'a> {
    pub array: &'a Array,
    pub given: &'a TableFile,
    pub smallest: &'a Smallest,
    pub before: u64,
    pub after: u64,
}

impl Case<'_> {
    /// The given table with other rows.
    fn with(&self, rows: &Rows) -> TableFile {
        TableFile { rows: rows.clone(), ..self.given.clone() }
    }

    /// Counts what was met.
    pub fn count(&self, tally: &mut Tally) {
        let Case { given, smallest, .. } = self;
        let set = bits_set(&given.rows, &smallest.rows).len();
        let [before, after] = [self.before, self.after].map(handover::code);
        let said = [
            ("mending, none missing", set == 0),
            ("mending, bits set", set > 0),
            ("mending, bits of rule 1 alone", set > 0 && smallest.rounds == 0),
            ("mending, more rounds than one", smallest.rounds > 1),
            ("mending, more rounds than 200", smallest.rounds > MANY_ROUNDS),
            ("mending, 16,512 bits, the most", set == MOST_BITS),
            ("mending, a given bit is passed on", self.passes_on()),
            ("mending, a pair lives by bits that were set", self.wakes()),
            ("mending, a balance keeps a pair from living", self.halts()),
            ("mending, accepted before and after", before == 0 && after == 0),
            ("mending, accepted after alone", before != 0 && after == 0),
            ("mending, rule 2 after", after == 2),
            ("mending, rule 4 after", after == 4),
            ("mending, rule 4 after by a pair that lives since", after == 4 && self.woken_breaks()),
            ("mending, rule 5 after", after == 5),
        ];
        said.into_iter().for_each(|(what, is)| tally.other(what, is.into()));
    }

    /// Whether a bit was set that would not be if no bit were given.
    fn passes_on(&self) -> bool {
        let bare = Smallest::of(self.array, &self.with(&vec![[0; ROW]; self.array.names()]));
        let set = bits_set(&self.given.rows, &self.smallest.rows);
        set.into_iter().any(|(name, o)| !has_bit(&bare.rows[name], o))
    }

    /// Whether a pair with arguments lives that does not by the given rows and rule 1.
    fn wakes(&self) -> bool {
        let (first, mended) = (self.with(&self.smallest.first), self.with(&self.smallest.rows));
        let (before, after) = (View::of(self.array, &first), View::of(self.array, &mended));
        let wakes = |pair: &Pair| before.node(pair.0).arity() > 0 && !before.live(*pair) && after.live(*pair);
        let mut pairs = after.pairs();
        pairs.any(|pair| wakes(&pair))
    }

    /// Whether rule 3 would ask for more if balances ended no pair's life.
    fn halts(&self) -> bool {
        let mended = self.with(&self.smallest.rows);
        let view = View::of(self.array, &mended);
        let meets = |pair: Pair| view.agree(pair) && view.shared(pair) > 0 && !view.fits(pair);
        let mut pairs = view.pairs();
        pairs.any(|pair| meets(pair) && view.fails(3, pair))
    }

    /// Whether the pair that breaks rule 4 does not live by the given rows.
    fn woken_breaks(&self) -> bool {
        let [p, q, _] = handover::figures(self.after);
        !View::of(self.array, self.given).live((p as usize, q as usize))
    }
}
