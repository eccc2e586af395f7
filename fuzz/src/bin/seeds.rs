//! Writes the corpus that the fuzzer starts from: the examples, the stored pairs of files, the stored arrays, random arrays
//! with accepted, nearly accepted and broken tables, tables with sets, by what is answered, tables of 256 claims, in
//! order and not, tables for many senders, and tables that lack bits. Each comes with some calls. Argument: the folder.

use outside::files::{ArrayFile, TableFile};
use outside::mended::Smallest;
use outside::random::Random;
use outside::{arrays, balanced, changes, damage, many_senders, parts, sets, tables, tangled, thinned, travels};
use plain::Verdict;
use std::fs;
use std::io;
use std::path::Path;

const REPAIR_BOTH: u8 = 3;
const SORT_CLAIMS: u8 = 4;
/// Larger files only slow the fuzzer down.
const MOST_BYTES: usize = 8000;
const RANDOM: u64 = 300;
const OF_EACH_SORT: usize = 25;
const CROWDED: u64 = 15;
const MANY_SENDERS: usize = 30;
const MENDING: usize = 60;

type Pair = (String, Vec<u8>, Vec<u8>);

/// A start, the steps of the first threads with each other, and two walks.
fn calls() -> Vec<u8> {
    let mut calls = vec![0, 0, 0];
    for (receiver, sender) in (0..4).flat_map(|r| (0..4).map(move |s| (r, s))) {
        calls.extend([1, 0, 0, receiver, sender]);
    }
    calls.extend([4, 0, 0, 5, 4, 0, 0, 30]);
    calls
}

/// Claims that are in order are sorted, which keeps what the fuzzer makes of them in order.
fn flags(array: &[u8], table: &[u8]) -> u8 {
    match plain::check(array, table) {
        Verdict::Refused(_) => REPAIR_BOTH,
        _ => REPAIR_BOTH | SORT_CLAIMS,
    }
}

fn seed(array: &[u8], table: &[u8]) -> Vec<u8> {
    let mut bytes = vec![flags(array, table)];
    for file in [array, table] {
        bytes.extend((file.len() as u16).to_le_bytes());
        bytes.extend(file);
    }
    let (words, numbers, fill) = (4000u16, 1000u16, 0x5a);
    bytes.extend(words.to_le_bytes());
    bytes.extend(numbers.to_le_bytes());
    bytes.push(fill);
    bytes.extend(calls());
    bytes
}

fn files_in(folder: &Path) -> io::Result<Vec<(String, Vec<u8>)>> {
    let mut files = Vec::new();
    for entry in fs::read_dir(folder)? {
        let path = entry?.path();
        let name = path.file_name().expect("a file has a name").to_string_lossy().into_owned();
        files.push((name, fs::read(path)?));
    }
    Ok(files)
}

fn examples(root: &Path) -> io::Result<Vec<Pair>> {
    let mut found = Vec::new();
    for entry in fs::read_dir(root.join("examples"))? {
        let (path, name) = entry.map(|entry| (entry.path(), entry.file_name()))?;
        if path.is_dir() {
            let name = name.to_string_lossy().into_owned();
            found.push((name, fs::read(path.join("array.pis"))?, fs::read(path.join("table.pic"))?));
        }
    }
    Ok(found)
}

/// The stored pairs, named as the program `cases` is given them; a name that no file has counts as empty.
fn stored(root: &Path) -> io::Result<Vec<Pair>> {
    let files = files_in(&root.join("crates/cases/data"))?;
    let content = |name: &str| files.iter().find(|file| file.0 == name).map_or(Vec::new(), |file| file.1.clone());
    let names = fs::read_to_string(root.join("crates/cases/args"))?;
    let names: Vec<&str> = names.split_whitespace().collect();
    let pair = |pair: &[&str]| (pair.join("-"), content(pair[0]), content(pair[1]));
    Ok(names.chunks_exact(2).map(pair).collect())
}

fn random(round: u64) -> Pair {
    let mut random = Random::of(1, 0, round);
    let array = arrays::busy(&mut random).bytes();
    let draft = random.pick(&[tables::accepted, tables::nearly, tables::broken]);
    let table = draft(&mut random, &parts::read(&array)).bytes();
    (format!("random-{round}"), array, table)
}

/// A table that has a set of two agents, now and then with a set whose claims differ, or with claims out of order.
fn random_sets(round: u64) -> Option<Pair> {
    let mut random = Random::of(2, 0, round);
    let array = arrays::busy(&mut random).bytes();
    let draft = random.pick(&[tables::accepted, tables::nearly]);
    let table = draft(&mut random, &parts::read(&array));
    let faults = random.pick(&[&[][..], &[30], &[31]]);
    let bytes = damage::table(&mut random, &table, faults);
    sets::has_wide(&table.claims).then_some((format!("sets-{round}"), array, bytes))
}

/// 256 claims, where agents have numbers above 255; every other table has claims out of order.
fn crowded(round: u64) -> Pair {
    let mut random = Random::of(3, 0, round);
    let array = arrays::line(&mut random, 270).bytes();
    let table = tables::crowded(&mut random, &parts::read(&array));
    let faults: &[u8] = if round.is_multiple_of(2) { &[] } else { &[31] };
    (format!("crowded-{round}"), array, damage::table(&mut random, &table, faults))
}

/// Many senders, and a table that is held or has one change.
fn random_senders(round: u64) -> Pair {
    let mut random = Random::of(4, 0, round);
    let file = many_senders::array(&mut random).bytes();
    let array = parts::read(&file);
    let mut table = balanced::draft(&mut random, &array);
    if !random.once_in(3) {
        changes::change(&mut random, &array, &mut table);
    }
    (format!("senders-{round}"), file, table.bytes())
}

/// A random array, one in which bits take many ways, or a design in which they travel; each with a table.
fn for_mending(random: &mut Random) -> (ArrayFile, TableFile) {
    if random.once_in(3) {
        let travel = travels::any(random, 8);
        return (travel.array, travel.table);
    }
    let make = random.pick(&[arrays::busy, tangled::array]);
    let draft = random.pick(&[tables::accepted, tangled::table]);
    let file = make(random);
    let table = draft(random, &parts::read(&file.bytes()));
    (file, table)
}

/// Rows that lost bits or got some, also from where none is missing.
fn random_mending(round: u64) -> Pair {
    let mut random = Random::of(5, 0, round);
    let (file, mut table) = for_mending(&mut random);
    let bytes = file.bytes();
    let array = parts::read(&bytes);
    table.array_sum = array.sum();
    if random.once_in(2) {
        table.rows = Smallest::of(&array, &table).rows;
    }
    thinned::change(&mut random, &array, &mut table.rows);
    (format!("mending-{round}"), bytes, table.bytes())
}

/// Held; broken by a set whose first claim would hold alone; refused by 30; by 31.
fn has_sort(sort: usize, pair: &Pair) -> bool {
    match plain::check(&pair.1, &pair.2) {
        Verdict::Held { .. } => sort == 0,
        Verdict::Rule { number: 5, place } => sort == 1 && sets::holds_alone(&TableFile::read(&pair.2), place[0]),
        Verdict::Refused(refusal) => sort == 2 && refusal.number == 30 || sort == 3 && refusal.number == 31,
        _ => false,
    }
}

/// As many of each sort, whose files are small enough.
fn of_each_sort() -> impl Iterator<Item = Pair> {
    let of = |sort| (0..).filter_map(random_sets).filter(move |pair| is_small(pair) && has_sort(sort, pair));
    (0..4).flat_map(move |sort| of(sort).take(OF_EACH_SORT))
}

fn is_small(pair: &Pair) -> bool {
    pair.1.len() + pair.2.len() <= MOST_BYTES
}

fn main() -> io::Result<()> {
    let root = Path::new(env!("CARGO_MANIFEST_DIR")).join("..");
    let folder = std::env::args().nth(1).expect("the folder to write to");
    fs::create_dir_all(&folder)?;
    let arrays =
        files_in(&root.join("crates/inspect/data"))?.into_iter().map(|(name, array)| (name, array, Vec::new()));
    let files = examples(&root)?.into_iter().chain(stored(&root)?).chain(arrays);
    let senders = (0..).map(random_senders).filter(is_small).take(MANY_SENDERS);
    let mending = (0..).map(random_mending).filter(is_small).take(MENDING);
    let drafts = (0..RANDOM).map(random).chain(of_each_sort()).chain((0..CROWDED).map(crowded));
    let pairs = files.chain(drafts).chain(senders).chain(mending);
    for (name, array, table) in pairs.filter(is_small) {
        fs::write(Path::new(&folder).join(name), seed(&array, &table))?;
    }
    Ok(())
}
