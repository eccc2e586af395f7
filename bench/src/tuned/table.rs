//! Reads a table file: refusals 13 to 21, 30 and 31.

use super::array::Array;
use super::{refusal, u16_at, u32_at, u64_at, word_sum, Row};

/// A table file that was read for an array.
pub struct Table<'a> {
    file: &'a [u8],
    pub balances: usize,
    pub claims: usize,
    balance_size: usize,
    balances_at: usize,
    claims_at: usize,
}

/// A claim's numbers.
#[derive(Clone, Copy)]
pub struct Claim {
    pub agent: usize,
    pub most: u64,
    pub balance: usize,
    pub set: u64,
}

impl Table<'_> {
    /// Safety: name is below N; so for balance and claim numbers and nodes below.
    #[inline(always)]
    pub unsafe fn row(&self, name: usize) -> Row {
        [0, 8, 16, 24].map(|at| u64_at(self.file, 32 * name + at))
    }

    pub unsafe fn bound(&self, k: usize) -> u32 {
        u32_at(self.file, self.balances_at + k * self.balance_size)
    }

    #[inline(always)]
    pub unsafe fn weight(&self, k: usize, node: usize) -> u16 {
        u16_at(self.file, self.balances_at + k * self.balance_size + 4 + 2 * node)
    }

    pub unsafe fn claim(&self, c: usize) -> Claim {
        let word = u64_at(self.file, self.claims_at + 8 * c);
        Claim {
            agent: (word & 0xffff) as usize,
            most: word >> 16 & 0xffff,
            balance: (word >> 32 & 0xffff) as usize,
            set: word >> 48,
        }
    }

    /// Set, agent, most and balance as one number, by which claims rise.
    unsafe fn rank(&self, c: usize) -> u64 {
        let word = u64_at(self.file, self.claims_at + 8 * c);
        word & 0xffff_0000_ffff_0000 | (word & 0xffff) << 32 | word >> 32 & 0xffff
    }
}

pub fn read<'a>(array: &Array, file: &'a [u8]) -> Result<Table<'a>, u64> {
    let table = frame(array, file)?;
    unsafe {
        check_rows(array, &table)?;
        check_balances(array, &table)?;
        check_claims(array, &table)?;
        check_order(&table)?;
    }
    Ok(table)
}

/// Refusals 13 to 18.
fn frame<'a>(array: &Array, file: &'a [u8]) -> Result<Table<'a>, u64> {
    let len = file.len();
    if !(28..=59_516).contains(&len) || !len.is_multiple_of(4) {
        return Err(refusal(13, 0));
    }
    unsafe {
        if u32_at(file, len - 4) != u32::from_le_bytes(*b"PIC1") {
            return Err(refusal(14, 0));
        }
        let balances = usize::from(u16_at(file, len - 16));
        let claims = usize::from(u16_at(file, len - 14));
        if balances > 24 || claims > 256 {
            return Err(refusal(15, 0));
        }
        let balance_size = 4 + 2 * (array.nodes + array.nodes % 2);
        let balances_at = 32 * array.names;
        let claims_at = balances_at + balances * balance_size;
        let starts = [28, 24, 20].map(|back| u32_at(file, len - back) as usize);
        if starts != [0, balances_at, claims_at] || claims_at + 8 * claims + 28 != len {
            return Err(refusal(16, 0));
        }
        if word_sum(file, len - 8) != u32_at(file, len - 8) {
            return Err(refusal(17, 0));
        }
        if u32_at(file, len - 12) != array.sum {
            return Err(refusal(18, 0));
        }
        Ok(Table { file, balances, claims, balance_size, balances_at, claims_at })
    }
}

/// Refusal 19.
unsafe fn check_rows(array: &Array, table: &Table) -> Result<(), u64> {
    for v in 0..array.names {
        let row = table.row(v);
        let outside = (0..4).fold(0, |bits, w| bits | row[w] & !array.opened[w]);
        if outside != 0 {
            return Err(refusal(19, v));
        }
    }
    Ok(())
}

/// Refusal 20. Weights are taken together: all bits that a node may not have, over a whole balance.
unsafe fn check_balances(array: &Array, table: &Table) -> Result<(), u64> {
    let padded = array.nodes + array.nodes % 2;
    let mut barred = [u16::MAX; 1024];
    for i in 0..array.nodes {
        if array.node(i).is_agent() {
            *barred.get_unchecked_mut(i) = 0;
        }
    }
    for k in 0..table.balances {
        let bits = (0..padded).fold(0, |bits, i| bits | table.weight(k, i) & *barred.get_unchecked(i));
        if bits != 0 {
            return Err(refusal(20, k));
        }
    }
    Ok(())
}

/// Refusal 21.
unsafe fn check_claims(array: &Array, table: &Table) -> Result<(), u64> {
    for c in 0..table.claims {
        let claim = table.claim(c);
        let agent = claim.agent < array.nodes && array.node(claim.agent).is_agent();
        if !agent || claim.balance >= table.balances {
            return Err(refusal(21, c));
        }
    }
    Ok(())
}

/// Refusals 30 and 31. Claims that rise have a set's claims side by side, so that neighbours are compared alone; only
/// where that fails is the place looked for.
unsafe fn check_order(table: &Table) -> Result<(), u64> {
    let mut fits = true;
    for c in 1..table.claims {
        let (before, rank) = (table.rank(c - 1), table.rank(c));
        let differ = rank ^ before;
        fits &= (before < rank) & ((rank >> 48 == 0) | (differ >> 48 != 0) | (differ as u32 == 0));
    }
    if fits {
        return Ok(());
    }
    check_sets(table)?;
    let place = (1..table.claims).find(|c| table.rank(*c) <= table.rank(c - 1));
    place.map_or(Ok(()), |c| Err(refusal(31, c)))
}

/// Marks a slot without a claim.
const FREE: u16 = u16::MAX;

/// Refusal 30 of claims in any order: each is compared with the first of its set.
unsafe fn check_sets(table: &Table) -> Result<(), u64> {
    let mut slots = [FREE; 1024];
    for c in 0..table.claims {
        let claim = table.claim(c);
        if claim.set == 0 {
            continue;
        }
        let first = first_of_set(table, &mut slots, c, claim);
        if first.most != claim.most || first.balance != claim.balance {
            return Err(refusal(30, c));
        }
    }
    Ok(())
}

/// The first claim of claim c's set, found by open addressing. It is noted where it is claim c.
unsafe fn first_of_set(table: &Table, slots: &mut [u16; 1024], c: usize, claim: Claim) -> Claim {
    let mut slot = (claim.set.wrapping_mul(0x9e37_79b9_7f4a_7c15) >> 54) as usize;
    loop {
        let found = slots.get_unchecked_mut(slot);
        if *found == FREE {
            *found = c as u16;
            return claim;
        }
        let first = table.claim(usize::from(*found));
        if first.set == claim.set {
            return first;
        }
        slot = (slot + 1) & 1023;
    }
}
