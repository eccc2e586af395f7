//! What a receiver would meet if senders were taken together, and the counts of what answers say of such tables.

use crate::files::ROW;
use crate::tables::{front, Pair};
use crate::tally::Tally;
use crate::view::{within, View};

const RULES: [usize; 2] = [3, 4];
/// No balance, one, and as many as there may be.
const BALANCES: [usize; 3] = [0, 1, 24];
const MOST_ARITY: usize = 8;

/// Senders of a channel that are taken together, and how many such sets there may be.
const SET: usize = 8;
const SETS: usize = 12;
/// Said of an array, and of a table with any answer.
const SIZES: [&str; 4] = [
    "over 12 channels with senders",
    "over 12 eights of a channel's senders",
    "over 256 senders on a channel",
    "a live pair with a continuation that weighs over 1,000,000",
];
/// Said of a live pair in a held table.
const ENDS: [&str; 6] = [
    "a weight of 65,535",
    "both weights 65,535",
    "a continuation that weighs over 65,535",
    "32 agents that weigh in a continuation's load",
    "a bound of 0",
    "a bound of 4,294,967,295",
];
/// Who together would break a rule in a held table. Those of a channel and an arity are kept apart by balances alone.
const TOGETHER: [&str; 3] =
    ["the senders of an arity", "the senders of a channel and an arity", "eight senders of a channel"];
/// What alone ends the life of a pair that would break a rule, in a held table.
const ENDED: [&str; 4] = ["balances", "one balance, by one unit", "an arity one apart", "rows"];
/// Said of the place of a broken rule.
const PLACES: [&str; 12] = [
    "not at the first receiver",
    "at neither the first nor the last sender of its channel",
    "after eight senders of its channel",
    "at the 256th or 257th sender of its channel",
    "not at the first argument or balance",
    "such a receiver, sender and argument or balance",
    "at one pair alone",
    "at one pair alone, such a receiver and sender",
    "and in a later place",
    "the channels share one bit",
    "the weights reach a bound",
    "at the last receiver that has a live pair",
];
const DRAFT: &str = "drafts held";
const LIVE: &str = "held with a live pair";
const LATER_RULE: &str = "rule 3, and rule 4 in some place";

fn held_with(what: &str) -> String {
    format!("held with a live pair, {what}")
}

fn held_though(what: &str, rule: usize) -> String {
    format!("held, {what} together would break rule {rule}")
}

fn held_because(what: &str, rule: usize) -> String {
    format!("held, a pair that would break rule {rule} is ended only by {what}")
}

fn broken(rule: usize, what: &str) -> String {
    format!("rule {rule}, {what}")
}

fn arity(arity: usize) -> String {
    format!("arity {arity}")
}

fn balances(count: usize) -> String {
    format!("K = {count}")
}

/// All counts, none of which may stay 0. Arity 0 cannot break rule 3, nor K = 0 rule 4.
pub fn names() -> Vec<String> {
    let mut names: Vec<String> = [DRAFT, LIVE, LATER_RULE].into_iter().chain(SIZES).map(String::from).collect();
    let sorts = (0..=MOST_ARITY).map(arity).chain(BALANCES.map(balances));
    names.extend(sorts.clone().chain(ENDS.map(String::from)).map(|what| held_with(&what)));
    for rule in RULES {
        names.extend(TOGETHER.map(|what| held_though(what, rule)));
        names.extend(ENDED.map(|what| held_because(what, rule)));
        let never = if rule == 3 { arity(0) } else { balances(0) };
        let sorts = sorts.clone().filter(|what| *what != never);
        names.extend(sorts.chain(PLACES.map(String::from)).map(|what| broken(rule, &what)));
    }
    names
}

/// A table's live pairs, and those of them at which rules 3 and 4 fail, in the checker's order.
pub struct Found<'a> {
    view: &'a View<'a>,
    live: Vec<Pair>,
    broken: [Vec<Pair>; 2],
}

impl<'a> Found<'a> {
    pub fn of(view: &'a View<'a>) -> Found<'a> {
        let live = view.live_pairs();
        let broken = RULES.map(|rule| live.iter().copied().filter(|pair| view.fails(rule, *pair)).collect());
        Found { view, live, broken }
    }

    /// The answer that is due where rules 1, 2 and 5 are met.
    pub fn due(&self) -> u64 {
        let first = RULES.into_iter().zip(&self.broken).find_map(|(rule, pairs)| Some((rule, *pairs.first()?)));
        first.map_or(0, |(rule, (p, q))| {
            let figures = [p, q, self.view.failing(rule, (p, q))[0]];
            let place = figures.into_iter().enumerate().map(|(i, figure)| (figure as u64) << (8 + 16 * i));
            rule as u64 + place.sum::<u64>()
        })
    }

    pub fn count(&self, tally: &mut Tally, code: u8) {
        self.count_sizes(tally);
        match usize::from(code) {
            0 => self.count_held(tally),
            rule if RULES.contains(&rule) => self.count_broken(tally, rule),
            _ => {}
        }
    }

    /// The senders of each channel that has some.
    fn channels(&self) -> Vec<Vec<usize>> {
        let senders = |name: usize| {
            let all = self.view.senders.iter().copied();
            all.filter(|q| self.view.node(*q).name == name).collect::<Vec<usize>>()
        };
        (0..self.view.array.names()).map(senders).filter(|senders| !senders.is_empty()).collect()
    }

    fn count_sizes(&self, tally: &mut Tally) {
        let channels = self.channels();
        let sets: usize = channels.iter().map(|senders| senders.len().div_ceil(SET)).sum();
        let longest = channels.iter().map(Vec::len).max().unwrap_or(0);
        let left = |(p, q): &Pair| [*p, *q].map(|x| self.view.node(x).left);
        let heavy = |child: &usize| self.view.loads.iter().any(|loads| loads[*child] > 1_000_000);
        let flooded = self.live.iter().any(|pair| left(pair).iter().any(heavy));
        let said = [channels.len() > SETS, sets > SETS, longest > 256, flooded];
        SIZES.into_iter().zip(said).for_each(|(what, said)| tally.count(what.into(), said));
    }

    fn count_held(&self, tally: &mut Tally) {
        let (view, live) = (self.view, &self.live);
        tally.count(LIVE.into(), !live.is_empty());
        for n in 0..=MOST_ARITY {
            tally.count(held_with(&arity(n)), live.iter().any(|(p, _)| view.node(*p).arity() == n));
        }
        for count in BALANCES {
            tally.count(held_with(&balances(count)), !live.is_empty() && view.balances().len() == count);
        }
        let ends = ENDS.into_iter().zip(self.ends());
        ends.for_each(|(what, said)| tally.count(held_with(what), said));
        for rule in RULES {
            let together = TOGETHER.into_iter().zip(self.together(rule));
            together.for_each(|(what, said)| tally.count(held_though(what, rule), said));
            let ended = ENDED.into_iter().zip(self.ended(rule));
            ended.for_each(|(what, said)| tally.count(held_because(what, rule), said));
        }
    }

    /// Whether some live pair reaches each end.
    fn ends(&self) -> [bool; ENDS.len()] {
        let view = self.view;
        let some =
            |holds: &dyn Fn(usize, Pair) -> bool| self.live.iter().any(|pair| view.balances().any(|k| holds(k, *pair)));
        let left = |(p, q): Pair| [p, q].map(|x| view.node(x).left);
        [
            some(&|k, (p, q)| view.weight(k, p).max(view.weight(k, q)) == 65_535),
            some(&|k, (p, q)| view.weight(k, p).min(view.weight(k, q)) == 65_535),
            some(&|k, pair| left(pair).iter().any(|child| view.loads[k][*child] > 65_535)),
            some(&|k, pair| left(pair).iter().any(|child| self.weighing(k, *child) >= 32)),
            some(&|k, _| view.bound(k) == 0),
            some(&|k, _| view.bound(k) == u32::MAX.into()),
        ]
    }

    /// How many agents with a weight a load is made of.
    fn weighing(&self, k: usize, number: usize) -> usize {
        front(self.view.array, number).into_iter().filter(|x| self.view.weight(k, *x) > 0).count()
    }

    /// Whether some receiver would fail against senders taken together, of which it is live with one.
    fn together(&self, rule: usize) -> [bool; TOGETHER.len()] {
        let view = self.view;
        let channels = self.channels();
        let mut said = [false; TOGETHER.len()];
        for &p in &view.receivers {
            let met: Vec<usize> = self.live.iter().filter(|pair| pair.0 == p).map(|pair| pair.1).collect();
            let alike =
                |senders: &[usize]| -> Vec<usize> { senders.iter().copied().filter(|q| view.agree((p, *q))).collect() };
            let fails =
                |senders: &[usize]| met.iter().any(|q| senders.contains(q)) && self.fails_against(rule, p, senders);
            said[0] |= fails(&alike(&view.senders));
            said[1] |= channels.iter().any(|senders| fails(&alike(senders)));
            said[2] |= channels.iter().any(|senders| senders.chunks(SET).any(fails));
        }
        said
    }

    /// Whether the receiver fails against the union of what is sent, or against the largest need in some balance.
    fn fails_against(&self, rule: usize, p: usize, senders: &[usize]) -> bool {
        let view = self.view;
        let node = view.node(p);
        if rule == 3 {
            let sent = |i: usize| senders.iter().filter_map(move |q| view.node(*q).arguments.get(i));
            let rows = |i: usize| union(sent(i).map(|name| &view.table.rows[*name]));
            return (0..node.arity()).any(|i| !within(&rows(i), &view.table.rows[node.arguments[i]]));
        }
        view.balances().any(|k| {
            let need = |q: &usize| view.loads[k][view.node(*q).left] as i64 - view.weight(k, *q) as i64;
            let largest = senders.iter().map(need).max();
            largest.is_some_and(|need| view.loads[k][node.left] as i64 + need > view.gain(k, p))
        })
    }

    /// Whether some pair would break the rule but for one reason why it is not live.
    fn ended(&self, rule: usize) -> [bool; ENDED.len()] {
        let view = self.view;
        let some = |holds: &dyn Fn(Pair) -> bool| view.pairs().any(|pair| holds(pair) && view.fails(rule, pair));
        let meets = |pair: Pair| view.agree(pair) && view.shared(pair) > 0;
        let above = |pair: Pair| view.ending(pair).map(|k| view.sum(k, pair) - view.bound(k)).collect::<Vec<u64>>();
        let apart = |(p, q): Pair| view.node(p).arity().abs_diff(view.node(q).arity());
        [
            some(&|pair| meets(pair) && !view.fits(pair)),
            some(&|pair| meets(pair) && above(pair) == [1]),
            some(&|pair| apart(pair) == 1 && view.shared(pair) > 0 && view.fits(pair)),
            some(&|pair| view.agree(pair) && view.shared(pair) == 0 && view.fits(pair)),
        ]
    }

    fn count_broken(&self, tally: &mut Tally, rule: usize) {
        let view = self.view;
        let pairs = &self.broken[rule - 3];
        let pair = pairs[0];
        tally.count(broken(rule, &arity(view.node(pair.0).arity())), true);
        if BALANCES.contains(&view.balances().len()) {
            tally.count(broken(rule, &balances(view.balances().len())), true);
        }
        let places = PLACES.into_iter().zip(self.places(rule, pair, pairs));
        places.for_each(|(what, said)| tally.count(broken(rule, what), said));
        if rule == 3 {
            tally.count(LATER_RULE.into(), !self.broken[1].is_empty());
        }
    }

    fn places(&self, rule: usize, (p, q): Pair, pairs: &[Pair]) -> [bool; PLACES.len()] {
        let view = self.view;
        let (at, name) = (view.rank(q), view.node(q).name);
        let is_last = view.senders.iter().all(|other| *other <= q || view.node(*other).name != name);
        let figures = view.failing(rule, (p, q));
        let late_receiver = p != view.receivers[0];
        let inner_sender = at > 0 && !is_last;
        let late_figure = figures[0] > usize::from(rule == 3);
        [
            late_receiver,
            inner_sender,
            at >= SET,
            at == 255 || at == 256,
            late_figure,
            late_receiver && inner_sender && late_figure,
            pairs.len() == 1,
            pairs.len() == 1 && late_receiver && inner_sender,
            pairs.len() + figures.len() > 2,
            view.shared((p, q)) == 1,
            view.balances().any(|k| view.sum(k, (p, q)) == view.bound(k)),
            self.live.last().is_some_and(|(last, _)| p == *last),
        ]
    }
}

fn union<'a>(rows: impl Iterator<Item = &'a [u8; ROW]>) -> [u8; ROW] {
    let mut all = [0; ROW];
    for row in rows {
        all.iter_mut().zip(row).for_each(|(to, from)| *to |= from);
    }
    all
}

/// Counts whether a draft is held.
pub fn count_draft(tally: &mut Tally, answer: u64) {
    tally.count(DRAFT.into(), answer == 0);
}
