//! Reader of tables: refusals 13 to 21, 30 and 31.

use crate::array::{read_array, Array};
use crate::bytes::{number16, number32, word_sum, Names};
use crate::{refuse, refuse_at, Refusal};

pub const MOST_BALANCES: usize = 24;
pub const MOST_CLAIMS: usize = 256;
pub const LONGEST_TABLE: usize = 59_516;
pub(crate) const ROW: usize = 32;
const CLAIM: usize = 8;
const TRAILER: usize = 28;

#[derive(Clone, Debug, PartialEq, Eq)]
pub struct Balance {
    bound: u32,
    weights: Vec<u16>,
}

impl Balance {
    pub fn bound(&self) -> u64 {
        u64::from(self.bound)
    }

    /// The weight of a node, 0 past the last node.
    pub fn weight(&self, node: usize) -> u64 {
        self.weights.get(node).copied().map_or(0, u64::from)
    }
}

#[derive(Clone, Copy, Debug, PartialEq, Eq)]
pub struct Claim {
    pub agent: usize,
    pub most: u16,
    pub balance: usize,
    /// The set number, 0 for a claim that stands alone.
    pub set: u16,
}

impl Claim {
    /// Whether both claims belong to one set. Set 0 is none.
    pub fn same_set(&self, other: &Claim) -> bool {
        self.set != 0 && self.set == other.set
    }

    /// What the claims of a table rise by, the most important number first.
    fn rank(&self) -> (u16, usize, u16, usize) {
        (self.set, self.agent, self.most, self.balance)
    }
}

/// A table that was read for an array.
#[derive(Clone, Debug, PartialEq, Eq)]
pub struct Table {
    rows: Vec<Names>,
    balances: Vec<Balance>,
    claims: Vec<Claim>,
}

impl Table {
    /// The flow row of a name, empty past the last name.
    pub fn row(&self, name: usize) -> Names {
        self.rows.get(name).copied().unwrap_or_default()
    }

    /// Adds to the flow row of a name, and gives the number of bits that were
    /// missing. Past the last name there is no row.
    pub(crate) fn add_to_row(&mut self, name: usize, more: &Names) -> usize {
        match self.rows.get_mut(name) {
            Some(row) if !more.within(row) => {
                let before = row.count();
                row.add_all(more);
                row.count() - before
            }
            _ => 0,
        }
    }

    pub fn balances(&self) -> &[Balance] {
        &self.balances
    }

    /// The claims in their one order, without repeats.
    pub fn claims(&self) -> &[Claim] {
        &self.claims
    }
}

/// Checks the array file, then reads and checks the table file.
pub fn read_table(array: &[u8], table: &[u8]) -> Result<Table, Refusal> {
    read_table_for(&read_array(array)?, table)
}

/// Reads and checks a table file for a checked array.
pub fn read_table_for(array: &Array, file: &[u8]) -> Result<Table, Refusal> {
    let length = file.len();
    if length < TRAILER || length > LONGEST_TABLE || length % 4 != 0 {
        return refuse(13);
    }
    let trailer = &file[length - TRAILER..];
    if trailer[24..] != *b"PIC1" {
        return refuse(14);
    }
    let balance_count = usize::from(number16(trailer, 12));
    let claim_count = usize::from(number16(trailer, 14));
    if balance_count > MOST_BALANCES || claim_count > MOST_CLAIMS {
        return refuse(15);
    }
    let nodes = array.nodes().len();
    let padding = if nodes % 2 == 1 { 2 } else { 0 };
    let balance_length = 4 + 2 * nodes + padding;
    let balances_start = ROW * array.names();
    let claims_start = balances_start + balance_length * balance_count;
    let trailer_start = claims_start + CLAIM * claim_count;
    if number32(trailer, 0) as usize != 0
        || number32(trailer, 4) as usize != balances_start
        || number32(trailer, 8) as usize != claims_start
        || trailer_start + TRAILER != length
    {
        return refuse(16);
    }
    if word_sum(&file[..length - 8]) != number32(trailer, 20) {
        return refuse(17);
    }
    if number32(trailer, 16) != array.sum() {
        return refuse(18);
    }

    let rows: Vec<Names> = file[..balances_start].chunks_exact(ROW).map(Names::read).collect();
    refuse_at(19, (0..rows.len()).filter(|i| !rows[*i].within(array.opened())))?;

    let parts: Vec<&[u8]> = file[balances_start..claims_start].chunks_exact(balance_length).collect();
    let balances: Vec<Balance> = parts.iter().map(|part| read_balance(part, nodes)).collect();
    let wrong_balance = |i: &usize| {
        let padded = parts[*i][4 + 2 * nodes..].iter().any(|byte| *byte != 0);
        let weighs = |node| array.agent(node).is_none() && balances[*i].weight(node) != 0;
        padded || (0..nodes).any(weighs)
    };
    refuse_at(20, (0..balance_count).filter(wrong_balance))?;

    let claims: Vec<Claim> = file[claims_start..trailer_start].chunks_exact(CLAIM).map(read_claim).collect();
    let wrong_claim = |i: &usize| {
        let claim = claims[*i];
        array.agent(claim.agent).is_none() || claim.balance >= balance_count
    };
    refuse_at(21, (0..claim_count).filter(wrong_claim))?;

    let differs = |later: &usize| {
        let claim = claims[*later];
        let mut earlier = claims[..*later].iter().filter(|earlier| earlier.same_set(&claim));
        earlier.any(|earlier| earlier.most != claim.most || earlier.balance != claim.balance)
    };
    refuse_at(30, (0..claim_count).filter(differs))?;

    // Claim 0 has no predecessor.
    let out_of_order = |i: &usize| claims[*i].rank() <= claims[*i - 1].rank();
    refuse_at(31, (1..claim_count).filter(out_of_order))?;

    Ok(Table { rows, balances, claims })
}

fn read_balance(part: &[u8], nodes: usize) -> Balance {
    Balance { bound: number32(part, 0), weights: (0..nodes).map(|node| number16(part, 4 + 2 * node)).collect() }
}

fn read_claim(part: &[u8]) -> Claim {
    Claim {
        agent: usize::from(number16(part, 0)),
        most: number16(part, 2),
        balance: usize::from(number16(part, 4)),
        set: number16(part, 6),
    }
}
