//! The verdict: loads of all nodes once, rules 1, 2 and 5 here, rules 3 and 4 in one search over pairs.

use super::array::{self, Array};
use super::lanes::Lanes;
use super::pairs::{self, Pair};
use super::table::{self, Table};
use super::{all_of, has};
use std::mem::MaybeUninit;

/// With a filter of that many sets.
pub fn check<const SETS: usize>(array: &[u8], table: &[u8]) -> u64 {
    let judged = array::read(array).and_then(|array| {
        let table = table::read(&array, table)?;
        Ok(unsafe { judge::<SETS>(&array, &table) })
    });
    judged.unwrap_or_else(|refusal| refusal)
}

/// Balances are taken eight at a time.
unsafe fn judge<const SETS: usize>(array: &Array, table: &Table) -> u64 {
    match table.balances.div_ceil(8) {
        0 => rules::<0, SETS>(array, table),
        1 => rules::<8, SETS>(array, table),
        2 => rules::<16, SETS>(array, table),
        _ => rules::<24, SETS>(array, table),
    }
}

unsafe fn rules<const L: usize, const SETS: usize>(array: &Array, table: &Table) -> u64 {
    let mut broken = 0;
    let first = |o: u8| {
        broken = 1 + (u64::from(o) << 8);
        has(&table.row(usize::from(o)), o)
    };
    if !all_of(&array.opened, first) {
        return broken;
    }
    let mut loads = [const { MaybeUninit::uninit() }; 1024];
    fill_loads::<L>(array, table, &mut loads);
    let root = loads[0].assume_init_ref();
    for k in 0..table.balances {
        if *root.get_unchecked(k) as u32 > table.bound(k) {
            return 2 + ((k as u64) << 8);
        }
    }
    match pairs::search::<L, SETS>(array, table, &loads) {
        Some(Pair { rule, p, q, n }) => rule + ((p as u64) << 8) + ((q as u64) << 24) + ((n as u64) << 40),
        None => rule_5(table),
    }
}

/// From the last node to the first, all balances of a node at once.
unsafe fn fill_loads<const L: usize>(array: &Array, table: &Table, loads: &mut [MaybeUninit<Lanes<L>>; 1024]) {
    for i in (0..array.nodes).rev() {
        let node = array.node(i);
        let at = |child: usize| loads.get_unchecked(child).assume_init_ref();
        let mut lanes = [0; L];
        match node.kind() {
            0 => {}
            1 => lanes = *at(node.left()),
            2 => {
                let (left, right) = (at(node.left()), at(node.right()));
                (0..L).for_each(|k| lanes[k] = left[k] + right[k]);
            }
            3 => {
                let (left, right) = (at(node.left()), at(node.right()));
                (0..L).for_each(|k| lanes[k] = left[k].max(right[k]));
            }
            _ => {
                for k in 0..table.balances {
                    *lanes.get_unchecked_mut(k) = i32::from(table.weight(k, i));
                }
            }
        }
        loads.get_unchecked_mut(i).write(lanes);
    }
}

/// The claims of a set agree in most and balance, so it is met where each of them holds alone. They lie side by side,
/// so the first claim that does not is of the first set that is not met.
unsafe fn rule_5(table: &Table) -> u64 {
    for c in 0..table.claims {
        let claim = table.claim(c);
        let weight = u64::from(table.weight(claim.balance, claim.agent));
        if weight * (claim.most + 1) <= u64::from(table.bound(claim.balance)) {
            let first = (0..c).find(|d| claim.set != 0 && table.claim(*d).set == claim.set);
            return 5 + ((first.unwrap_or(c) as u64) << 8);
        }
    }
    0
}
