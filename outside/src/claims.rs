//! Claims over a table's balances, in their order: alone and in sets, such that each follows from its balance, or one
//! figure away.

use plain::Array;

use crate::files::{Balance, Claim, AGENT, BALANCE, MOST, SET};
use crate::random::Random;
use crate::tables::agents;
use crate::{order, sets};

pub const MOST_CLAIMS: usize = 256;
/// Set numbers of which many agree in one byte only, some of them with 0.
pub const NUMBERS: [u16; 8] = [1, 2, 255, 256, 257, 512, 65_281, 65_535];

/// A balance with its number, and the agents that a claim on it can follow for.
struct Base<'a> {
    number: usize,
    balance: &'a Balance,
    agents: Vec<usize>,
}

impl Base<'_> {
    fn of((number, balance): (usize, &Balance)) -> Base<'_> {
        let least = |agent: usize| balance.bound.checked_div(balance.weights[agent].into());
        let can_follow = |agent: &usize| least(*agent).is_some_and(|most| most <= 65_535);
        Base { number, balance, agents: (0..balance.weights.len()).filter(can_follow).collect() }
    }

    /// The least number of threads that follows for an agent of this weight.
    fn least(&self, weight: u16) -> usize {
        (self.balance.bound / u32::from(weight)) as usize
    }
}

/// As many claims as wanted, or none where none follows: sets, and groups of set 0. Fewer where groups bring nothing
/// new.
pub fn following(random: &mut Random, balances: &[Balance], wanted: usize) -> Vec<Claim> {
    let bases = balances.iter().enumerate().map(Base::of).filter(|base| !base.agents.is_empty());
    let bases: Vec<Base> = bases.collect();
    if bases.is_empty() || wanted == 0 {
        return Vec::new();
    }
    let largest = random.pick(&[1, 3, 5, wanted]);
    let alone_in_three = random.pick(&[0, 0, 1, 3]);
    let mut numbers = numbers(random, wanted).into_iter();
    let mut claims = Vec::new();
    for _ in 0..4 * wanted {
        let room = wanted - claims.len();
        if room == 0 {
            break;
        }
        let some = random.between(1, largest);
        let size = random.pick(&[some, largest]).min(room);
        let set = if random.below(3) < alone_in_three { 0 } else { numbers.next().unwrap_or(0) };
        let base = &bases[random.below(bases.len())];
        claims.extend(group(random, base, set, size));
        if set == 0 && room > size + 1 && random.once_in(2) {
            claims.extend(twins(random, base, &bases));
        }
        order::put(&mut claims);
    }
    claims
}

/// Different set numbers, at least as many as wanted.
fn numbers(random: &mut Random, wanted: usize) -> Vec<u16> {
    let mut numbers = NUMBERS.to_vec();
    if wanted > numbers.len() {
        numbers.extend((1..=512).map(|i| 127 * i).filter(|number| !NUMBERS.contains(number)));
    }
    random.shuffle(&mut numbers);
    numbers
}

/// Claims on one balance. In a set each agent stands once, and all have the number that the least weight needs; alone,
/// an agent may be named with several numbers.
fn group(random: &mut Random, base: &Base, set: u16, size: usize) -> Vec<Claim> {
    let weight = |agent: &usize| base.balance.weights[*agent];
    // Agents of one weight can fill their set together.
    let wanted = weight(&random.pick(&base.agents));
    let equal: Vec<usize> = base.agents.iter().copied().filter(|agent| weight(agent) == wanted).collect();
    let mut pool = if equal.len() > 1 && random.once_in(2) { equal } else { base.agents.clone() };
    if set == 0 {
        pool = (0..size).map(|_| random.pick(&pool)).collect();
    } else {
        random.shuffle(&mut pool);
        pool.truncate(size);
    }
    let lightest = pool.iter().map(weight).min().unwrap_or(1);
    let shared = most(random, base.least(lightest));
    let claim = |agent: usize| {
        let most = if set == 0 { most(random, base.least(weight(&agent))) } else { shared };
        [agent as u16, most, base.number as u16, set]
    };
    pool.into_iter().map(claim).collect()
}

/// Two claims of set 0 that differ in their balance alone, if an agent has a weight in two.
fn twins(random: &mut Random, base: &Base, bases: &[Base]) -> Vec<Claim> {
    let other = &bases[random.below(bases.len())];
    let shared: Vec<usize> = base.agents.iter().copied().filter(|agent| other.agents.contains(agent)).collect();
    let Some(agent) = random.any(&shared) else { return Vec::new() };
    let least = [base, other].map(|base| base.least(base.balance.weights[agent]));
    let most = most(random, least[0].max(least[1]));
    [base, other].map(|base| [agent as u16, most, base.number as u16, 0]).to_vec()
}

/// A number of threads that follows, mostly the least one.
fn most(random: &mut Random, least: usize) -> u16 {
    let slack = if random.once_in(4) { random.between(0, 65_535 - least) } else { 0 };
    (least + slack) as u16
}

/// Takes one from a claim's or a whole set's number, or puts a lighter agent into a set. Order is kept.
pub fn nudge(random: &mut Random, array: &Array, balances: &[Balance], claims: &mut Vec<Claim>) {
    let c = random.below(claims.len());
    let lessened = match random.below(6) {
        0 => vec![c],
        1 | 2 => sets::members(claims, c),
        _ => {
            add_lighter(random, array, balances, claims, c);
            Vec::new()
        }
    };
    for d in lessened {
        claims[d][MOST] = claims[d][MOST].wrapping_sub(1);
    }
    order::put(claims);
}

/// A claim like claim c with an agent of less weight, if there is one.
fn add_lighter(random: &mut Random, array: &Array, balances: &[Balance], claims: &mut Vec<Claim>, c: usize) {
    let mut claim = claims[c];
    let weights = &balances[usize::from(claim[BALANCE])].weights;
    let weight = weights[usize::from(claim[AGENT])];
    let lighter: Vec<usize> = agents(array).into_iter().filter(|agent| weights[*agent] < weight).collect();
    let Some(agent) = random.any(&lighter) else { return };
    claim[AGENT] = agent as u16;
    if claims.len() < MOST_CLAIMS {
        claims.push(claim);
    } else {
        claims[random.below(MOST_CLAIMS)] = claim;
    }
}

/// Gives every claim one of a few set numbers, whether they agree or not. Order is kept.
pub fn mix_sets(random: &mut Random, claims: &mut Vec<Claim>) {
    for claim in claims.iter_mut() {
        claim[SET] = random.pick(&[0, 1, 256, 257]);
    }
    order::put(claims);
}

#[cfg(test)]
mod tests {
    use super::*;
    use crate::files::TableFile;
    use crate::{arrays, tables};

    type Draft = fn(&mut Random, &Array) -> TableFile;

    /// How many of 4,000 drafts for busy arrays have claims of which the condition holds.
    fn count_of(draft: Draft, holds: impl Fn(&[Claim]) -> bool) -> usize {
        let holds = |round: &u64| {
            let mut random = Random::of(3, 0, *round);
            let array = plain::read_array(&arrays::busy(&mut random).bytes()).expect("a valid array");
            holds(&draft(&mut random, &array).claims)
        };
        (0..4000).filter(holds).count()
    }

    fn count(holds: impl Fn(&[Claim]) -> bool) -> usize {
        count_of(tables::accepted, holds)
    }

    /// Whether the condition holds of two claims, the first one first.
    fn two(claims: &[Claim], holds: impl Fn(&Claim, &Claim) -> bool) -> bool {
        claims.iter().enumerate().any(|(c, one)| claims[c + 1..].iter().any(|other| holds(one, other)))
    }

    fn sets_differ(one: &Claim, other: &Claim) -> bool {
        one[SET] != 0 && other[SET] != 0 && one[SET] != other[SET]
    }

    #[test]
    fn claims_are_in_order() {
        let rise = |one: &Claim, other: &Claim| order::rank(one) < order::rank(other);
        for draft in [tables::accepted, tables::nearly, tables::broken] {
            assert_eq!(count_of(draft, |claims| claims.is_sorted_by(rise)), 4000);
        }
    }

    #[test]
    fn sets_have_several_agents() {
        assert!(count(sets::has_wide) > 400);
    }

    #[test]
    fn set_numbers_agree_in_one_byte() {
        assert!(count(|claims| two(claims, |a, b| sets_differ(a, b) && a[SET] % 256 == b[SET] % 256)) > 100);
        assert!(count(|claims| two(claims, |a, b| sets_differ(a, b) && a[SET] / 256 == b[SET] / 256)) > 100);
        assert!(count(|claims| two(claims, |a, b| a[SET] == 0 && b[SET] != 0 && b[SET] % 256 == 0)) > 20);
    }

    #[test]
    fn claims_alone_repeat_an_agent() {
        let alike = |a: &Claim, b: &Claim| a[SET] == 0 && b[SET] == 0 && a[AGENT] == b[AGENT];
        assert!(count(|claims| two(claims, |a, b| alike(a, b) && a[MOST] != b[MOST])) > 50);
        assert!(count(|claims| two(claims, |a, b| alike(a, b) && a[MOST] == b[MOST])) > 50);
    }

    #[test]
    fn sets_reach_the_limits() {
        let many = |round: &u64| {
            let mut random = Random::of(3, 1, *round);
            let array = plain::read_array(&arrays::line(&mut random, 256).bytes()).expect("a valid array");
            let claims = tables::crowded(&mut random, &array).claims;
            sets::has_longest(&claims)
        };
        assert!((0..400).filter(many).count() > 10);
        assert!(count(sets::has_many) > 2);
    }
}
