//! How often each answer was given.

use std::collections::BTreeMap;

use crate::{thinned, together};

pub const ENTRIES: [&str; 5] = ["check", "start", "step", "walk", "mend"];
pub const CHECK: usize = 0;
pub const START: usize = 1;
pub const STEP: usize = 2;
pub const WALK: usize = 3;
pub const MEND: usize = 4;
const REFUSALS: usize = 32;
/// The refusals that name a place.
const PLACED: [usize; 12] = [6, 7, 8, 9, 10, 11, 12, 19, 20, 21, 30, 31];

/// Further counts. None may stay 0.
const OTHERS: [&str; 74] = [
    "longest arrays",
    "longest tables",
    "held with a set of two agents",
    "held with 256 claims in one set",
    "held with 256 sets",
    "rule 5 at a claim that alone would hold",
    "21 after a claim that 30 would name",
    "21 after a claim that 31 would name",
    "30 after a claim that 31 would name",
    "31 by the set",
    "31 by the agent",
    "31 by most",
    "31 by the balance",
    "31 by a repeat",
    "31 by the set, its low byte rises",
    "31 by the agent, its low byte rises",
    "31 by most, its low byte rises",
    "31 at the last of 256 claims",
    "31 with a later claim out of order too",
    "31 where claims rise by agent before set",
    "held, the set decides",
    "held, the agent decides",
    "held, most decides",
    "held, the balance decides",
    "held, the set decides, its low byte falls",
    "held, the agent decides, its low byte falls",
    "held, most decides, its low byte falls",
    "31, and held in order",
    "31, and rule 1 in order",
    "31, and rule 2 in order",
    "31, and rule 3 in order",
    "31, and rule 4 in order",
    "31, and rule 5 in order",
    "calls with NULL",
    "configurations alike in engine and calculus",
    "of these with a marker",
    "accepted tables tried",
    "of these with a weight",
    "of these with a set of two agents",
    "configurations of demand 3",
    "of these with a set filled by two agents",
    "steps of demand 3",
    "attempts of demand 3 refused",
    "broken by a row: not accepted",
    "broken by a bound: not accepted",
    "broken by a claim: not accepted",
    "broken by a set's most: not accepted",
    "broken by a set's sum alone: not accepted",
    "mending, none missing",
    "mending, bits set",
    "mending, bits of rule 1 alone",
    "mending, more rounds than one",
    "mending, more rounds than 200",
    "mending, tangled, more rounds than ten",
    "mending, 16,512 bits, the most",
    "mending, a given bit is passed on",
    "mending, a pair lives by bits that were set",
    "mending, a balance keeps a pair from living",
    "mending, accepted before and after",
    "mending, accepted after alone",
    "mending, rule 2 after",
    "mending, rule 4 after",
    "mending, rule 4 after by a pair that lives since",
    "mending, rule 5 after",
    "mending, one bit less breaks rule 1",
    "mending, one bit less breaks rule 3",
    "mending, output just as long",
    "mending, output longer",
    "32 by one byte",
    "32 without output",
    "32 where no bit is missing",
    "32 where bits are missing",
    "mending, a refusal before 32",
    "mending, longest tables",
];

/// The further counts, with those of what was done to the rows that are mended.
fn others() -> impl Iterator<Item = &'static str> {
    OTHERS.into_iter().chain(thinned::SORTS)
}

#[derive(Clone, Copy, Default)]
struct Refused {
    count: u64,
    /// Those with a place other than 0.
    placed: u64,
}

/// What came of one sort of table.
#[derive(Clone, Copy, Default)]
pub struct Share {
    pub held: u64,
    pub broken: u64,
    pub refused: u64,
}

#[derive(Default)]
pub struct Tally {
    pub cases: u64,
    /// By entry and number.
    refused: BTreeMap<(usize, usize), Refused>,
    /// Held, then rules 1 to 5; and those whose last figure is above the least.
    verdicts: [u64; 6],
    later: [u64; 6],
    /// Starts, steps and mendings that were made.
    made: [u64; 5],
    /// Quiet, spent, full.
    endings: [u64; 3],
    /// Remarks read, by whether they are empty.
    pub remarks: [u64; 2],
    /// Tables meant to be accepted, nearly accepted, broken.
    pub shares: [Share; 3],
    /// The counts that `others` names.
    others: BTreeMap<&'static str, u64>,
    /// The counts named in `together`.
    sorts: BTreeMap<String, u64>,
}

/// Whether an entry uses a refusal.
fn uses(entry: usize, number: usize) -> bool {
    match entry {
        CHECK => number <= 21 || number == 30 || number == 31,
        START => number <= 12 || number == 22 || number == 28,
        STEP => number <= 12 || (22..=29).contains(&number),
        MEND => number <= 21 || (30..=32).contains(&number),
        _ => number <= 12 || number == 22 || number == 23,
    }
}

impl Tally {
    pub fn add(&mut self, entry: usize, answer: u64) {
        self.cases += 1;
        match handover::refusal(answer) {
            Some(number) => {
                let refused = self.refused.entry((entry, number.into())).or_default();
                refused.count += 1;
                refused.placed += u64::from(answer >> 8 != 0);
            }
            None if entry == CHECK => self.add_verdict(answer),
            None if entry == WALK => self.endings[usize::from(handover::code(answer))] += 1,
            None => self.made[entry] += 1,
        }
    }

    fn add_verdict(&mut self, answer: u64) {
        let rule = usize::from(handover::code(answer));
        let figures = handover::figures(answer);
        let later = match rule {
            3 => figures[2] > 1,
            4 => figures[2] > 0,
            _ => figures[0] > 0,
        };
        self.verdicts[rule] += 1;
        self.later[rule] += u64::from(later);
    }

    pub fn share(&mut self, sort: usize, answer: u64) {
        let share = &mut self.shares[sort];
        match handover::code(answer) {
            0 => share.held += 1,
            1..=99 => share.broken += 1,
            _ => share.refused += 1,
        }
    }

    pub fn other(&mut self, what: &'static str, more: u64) {
        assert!(others().any(|name| name == what), "no count of the list: {what}");
        *self.others.entry(what).or_default() += more;
    }

    /// Counts a table with many senders if it is of a sort.
    pub fn count(&mut self, what: String, is: bool) {
        *self.sorts.entry(what).or_default() += u64::from(is);
    }

    /// Prints all counts. Gives what is wrong: answers never given, and refusals by an entry that does not use them.
    pub fn print(&self) -> Vec<String> {
        let mut wrong = Vec::new();
        println!("refusals: count, and of these with a place other than 0 where a place is named");
        println!("{:>8}{}", "number", ENTRIES.map(|entry| format!("{entry:>18}")).concat());
        for number in 1..=REFUSALS {
            let cells = [CHECK, START, STEP, WALK, MEND].map(|entry| self.cell(entry, number, &mut wrong));
            println!("{number:>8}{}", cells.concat());
        }
        let unknown = self.refused.keys().filter(|(_, number)| !(1..=REFUSALS).contains(number));
        wrong.extend(unknown.map(|(entry, number)| format!("{} gave refusal {number}", ENTRIES[*entry])));
        self.print_answers(&mut wrong);
        self.print_sorts(&mut wrong);
        for (name, share) in ["accepted", "nearly accepted", "broken"].iter().zip(&self.shares) {
            println!("tables meant as {name}: held {}, rule {}, refused {}", share.held, share.broken, share.refused);
        }
        println!("cases: {}", self.cases);
        wrong
    }

    /// One refusal of one entry.
    fn cell(&self, entry: usize, number: usize, wrong: &mut Vec<String>) -> String {
        let Refused { count, placed } = self.refused.get(&(entry, number)).copied().unwrap_or_default();
        let named = PLACED.contains(&number);
        let name = ENTRIES[entry];
        if !uses(entry, number) {
            if count > 0 {
                wrong.push(format!("{name} does not use refusal {number}"));
            }
            return format!("{:>18}", "-");
        }
        if count == 0 || named && placed == 0 {
            wrong.push(format!("{name} never gave refusal {number}, or never with a place"));
        }
        if !named && placed > 0 {
            wrong.push(format!("{name} gave a place to refusal {number}"));
        }
        let places = if named { format!("{placed}") } else { String::new() };
        format!("{count:>9}{places:>9}")
    }

    fn print_answers(&self, wrong: &mut Vec<String>) {
        let verdicts = ["held", "rule 1", "rule 2", "rule 3", "rule 4", "rule 5"];
        let mut counts: Vec<(&str, u64)> = verdicts.into_iter().zip(self.verdicts).collect();
        let later = [
            "rule 1 at a name above 0",
            "rule 2 at a balance above 0",
            "rule 3 at an argument above 1",
            "rule 4 at a balance above 0",
            "rule 5 at a claim above 0",
        ];
        counts.extend(later.into_iter().zip(self.later.into_iter().skip(1)));
        counts.extend(["quiet", "spent", "full"].into_iter().zip(self.endings));
        let made = [("starts made", START), ("steps made", STEP), ("tables mended", MEND)];
        counts.extend(made.map(|(what, entry)| (what, self.made[entry])));
        counts.extend(["remarks, empty or of a refused file", "remarks, not empty"].into_iter().zip(self.remarks));
        counts.extend(others().map(|name| (name, self.others.get(name).copied().unwrap_or(0))));
        for (name, count) in counts {
            println!("{name}: {count}");
            if count == 0 {
                wrong.push(format!("{name}: never"));
            }
        }
    }

    fn print_sorts(&self, wrong: &mut Vec<String>) {
        let names = together::names();
        for name in &names {
            let count = self.sorts.get(name).copied().unwrap_or(0);
            println!("many senders, {name}: {count}");
            if count == 0 {
                wrong.push(format!("many senders, {name}: never"));
            }
        }
        let unknown = self.sorts.keys().filter(|name| !names.contains(name));
        wrong.extend(unknown.map(|name| format!("no count of the list: {name}")));
    }
}
