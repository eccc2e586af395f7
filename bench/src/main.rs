//! Times the proved library beside the plain and the tuned version, on the same inputs in one process, and
//! prints Markdown tables. Mending is timed beside the plain version alone.

#[cfg(test)]
mod agree;
mod designs;
mod files;
mod loops;
mod timing;
mod tuned;
mod versions;

use designs::Files;
use loops::Loaded;
use outside::files::ROW;
use timing::{measure, Measured};
use versions::{left, Call, Case, BESIDE_PLAIN, FILTERED, VERSIONS};

/// As many copies as names allow.
const FLEET: usize = 15;

/// Starts a table: the columns given, then `unit` for each version, then ratios.
fn begin(title: &str, columns: &[&str], versions: &[&str], unit: &str, ratios: &[&str]) {
    println!("\n### {title}\n");
    let mut all: Vec<String> = columns.iter().map(|column| column.to_string()).collect();
    all.extend(versions.iter().map(|version| format!("{version}, {unit}")));
    all.extend(ratios.iter().map(|ratio| ratio.to_string()));
    row(&all);
    println!("|{}", "---|".repeat(all.len()));
}

/// Starts a table of all versions.
fn head(title: &str, columns: &[&str], unit: &str) {
    begin(title, columns, &["proved", "plain", "tuned"], unit, &["proved/plain", "proved/tuned"]);
}

fn row(cells: &[String]) {
    println!("| {} |", cells.join(" | "));
}

fn time(micros: f64) -> String {
    match micros {
        _ if micros < 10.0 => format!("{micros:.3}"),
        _ if micros < 1000.0 => format!("{micros:.1}"),
        _ => format!("{micros:.0}"),
    }
}

/// A line of a table of all versions; times are divided by `steps`.
fn line(columns: &[String], measured: &Measured<3>, steps: f64) {
    let [proved, plain, tuned] = measured.best.map(|micros| micros / steps);
    let ratios = [proved / plain, proved / tuned].map(|ratio| format!("{ratio:.2}"));
    row(&[columns, &[proved, plain, tuned].map(time), &ratios].concat());
}

fn check_case(files: &Files, call: Call) -> Case {
    let (array, table) = (files.array.clone(), files.table.clone());
    Case { array, table, choices: vec![], lent: Default::default(), call }
}

const DESIGN: [&str; 4] = ["design", "M", "N", "K"];

fn design(name: &str, files: &Files) -> [String; 4] {
    let [nodes, names, balances] = [files.nodes, files.names, files.balances].map(|size| size.to_string());
    [name.to_string(), nodes, names, balances]
}

/// Measures a check that is to give `answer`.
fn check(name: &str, files: &Files, answer: u64) {
    let measured = measure(&check_case(files, Call::Check), &VERSIONS);
    assert_eq!(measured.answer & 0xff, answer, "{name}");
    line(&design(name, files), &measured, 1.0);
}

fn checks() {
    head("Checks", &DESIGN, "µs");
    check("pairs", &designs::pairs(1024, 24), 0);
    check("broken", &designs::broken(1024, 24), 4);
    check("arguments", &designs::arguments(1024, 256, 24), 0);
    check("sparse", &designs::sparse(1024, 128, 24), 0);
    check("fleet", &designs::fleet(FLEET), 0);
    check("fleet_mixed", &designs::fleet_mixed(FLEET), 0);
    let files = designs::arguments(1024, 256, 24);
    let name = "reading the array of arguments".to_string();
    line(&[name, "1024".into(), "256".into(), "".into()], &measure(&check_case(&files, Call::Read), &VERSIONS), 1.0);

    head("Checks by M (pairs)", &DESIGN, "µs");
    for nodes in [64, 128, 256, 512, 1024] {
        check("pairs", &designs::pairs(nodes, 24), 0);
    }
    head("Checks by N (arguments)", &DESIGN, "µs");
    for names in [16, 32, 64, 128, 256] {
        check("arguments", &designs::arguments(1024, names, 24), 0);
    }
    head("Checks by K (pairs)", &DESIGN, "µs");
    for balances in [0, 1, 2, 4, 8, 16, 24] {
        check("pairs", &designs::pairs(512, balances), 0);
    }
    head("Checks by sets (pairs, 256 claims)", &DESIGN, "µs");
    check("claims alone", &designs::sets(64, |_| 0), 0);
    check("one set (60 claims)", &designs::sets(64, |_| 1), 0);
    check("256 sets", &designs::sets(64, |c| c as u16 + 1), 0);
}

/// A held design without and with a filter.
fn filtered(name: &str, files: &Files) {
    let measured = measure(&check_case(files, Call::Check), &FILTERED);
    assert_eq!(measured.answer, 0, "{name}");
    row(&[&design(name, files)[..], &measured.best.map(time)].concat());
}

fn filters() {
    head("Checks that the filter does not help", &DESIGN, "µs");
    check("defeat", &designs::defeat(1024, 24), 0);
    check("defeat3", &designs::defeat3(1024, 256, 24), 0);
    check("defeat_sparse", &designs::defeat_sparse(1024, 128, 24), 0);
    check("within", &designs::within(1024, 24), 0);
    check("within_rows", &designs::within_rows(1024, 256, 24), 0);
    check("within_sparse", &designs::within_sparse(1024, 128, 24), 0);
    check("within_spread", &designs::within_spread(1024, 24), 0);
    check("ended", &designs::ended(1024, 24), 0);

    let versions = ["proved", "tuned", "tuned with sets by arity", "tuned with sets by channel name"];
    begin("Tuned with a filter", &DESIGN, &versions, "µs", &[]);
    filtered("pairs", &designs::pairs(1024, 24));
    filtered("arguments", &designs::arguments(1024, 256, 24));
    filtered("sparse", &designs::sparse(1024, 128, 24));
    filtered("fleet", &designs::fleet(FLEET));
    filtered("fleet_mixed", &designs::fleet_mixed(FLEET));
    filtered("defeat", &designs::defeat(1024, 24));
}

/// Measures a mending, and the check of the mended table, which is to give `answer`.
fn mend(name: &str, files: &Files, answer: u64) {
    let mut case = check_case(files, Call::Mend);
    case.lent.output = vec![0; files.table.len()];
    let (bits, lent) = left(&case);
    assert_eq!(handover::refusal(bits), None, "{name}");
    let [proved, plain] = measure(&case, &BESIDE_PLAIN).best;
    let checked = measure(&Case { table: lent.output, ..check_case(files, Call::Check) }, &BESIDE_PLAIN);
    assert_eq!(checked.answer & 0xff, answer, "{name}");
    let check = checked.best[0];
    let ratios = [proved / plain, proved / check].map(|ratio| format!("{ratio:.2}"));
    let bits = [handover::bits(bits).to_string()];
    row(&[&design(name, files)[..], &bits, &[proved, plain, check].map(time), &ratios].concat());
}

fn mendings() {
    let columns = ["design", "M", "N", "K", "bits set"];
    let versions = ["mend proved", "mend plain", "check of the mended table"];
    begin("Mending", &columns, &versions, "µs", &["proved/plain", "mend/check"]);
    mend("arguments, held", &designs::arguments(1024, 256, 24), 0);
    mend("defeat3, held", &designs::defeat3(1024, 256, 24), 0);
    mend("within_rows, held", &designs::within_rows(1024, 256, 24), 0);
    mend("sparse, held (no arguments)", &designs::sparse(1024, 128, 24), 0);
    mend("fleet, held", &designs::fleet(FLEET), 0);
    mend("fleet_mixed, held", &designs::fleet_mixed(FLEET), 0);
    mend("arguments, all rows empty", &designs::emptied(designs::arguments(1024, 256, 24)), 0);
    mend("arguments, one parameter's row full, the others empty", &one_full(designs::arguments(1024, 256, 24)), 0);
    mend("fleet, all rows empty", &designs::emptied(designs::fleet(FLEET)), 0);
    mend("fleet_mixed, all rows empty", &designs::emptied(designs::fleet_mixed(FLEET)), 0);
    mend("flooded", &designs::flooded(), 0);
    for arity in [8, 2, 1] {
        let files = designs::flooded_spread(arity, 24);
        mend(&format!("flooded_spread, arity {arity}"), &files, 0);
        mend(&format!("flooded_spread, arity {arity}, held"), &designs::mended(files), 0);
    }
    mend("sent_on", &designs::sent_on(255), 0);
    mend("own_channels", &designs::own_channels(128), 0);
    mend("received_on", &designs::received_on(254), 0);
    mend("waves", &designs::waves(64, 128), 4);
}

/// The last name's row has the first eight bits, the others have none.
fn one_full(files: Files) -> Files {
    let last = files.names - 1;
    designs::with_rows(files, |name| {
        let mut row = [0; ROW];
        row[0] = if name == last { 255 } else { 0 };
        row
    })
}

fn engine_case(loaded: &Loaded, call: Call) -> Case {
    let (array, lent) = (loaded.array.clone(), loaded.lent.clone());
    Case { array, table: vec![], choices: vec![0; 128], lent, call }
}

/// Measures the walk, for each step of it.
fn walk(name: &str, loaded: &Loaded, allowed: u32) {
    let measured = measure(&engine_case(loaded, Call::Walk { allowed }), &VERSIONS);
    let (threads, _, steps) = handover::counts(measured.answer);
    assert_eq!(steps, allowed, "{name}");
    let call = format!("{:.1}", measured.best[0]);
    let columns = [name.to_string(), threads.to_string(), loaded.names.to_string(), steps.to_string(), call];
    line(&columns, &measured, f64::from(steps));
}

fn walks() {
    let columns = ["design", "threads at the end", "names", "steps", "proved, µs a call"];
    head("Walks", &columns, "µs a step");
    walk("one-loop", &loops::loops(1, 0, 2), 10_000);
    walk("60-loops", &loops::loops(60, 0, 2), 10_000);
    walk("240-idle", &loops::loops(1, 240, 3), 1000);
    walk("240-idle-256-names", &loops::loops(1, 240, 256), 1000);
    head("Walks by steps (one-loop)", &columns, "µs a step");
    for steps in [1, 10, 100, 1000, 10_000] {
        walk("one-loop", &loops::loops(1, 0, 2), steps);
    }
}

/// Measures the step of the first two threads.
fn step(loaded: &Loaded) {
    let measured = measure(&engine_case(loaded, Call::Step { receiver: 1, sender: 0 }), &VERSIONS);
    assert_eq!(handover::code(measured.answer), 0);
    let sizes = [loaded.lent.thread_count, loaded.lent.marker_count].map(|size| size.to_string());
    line(&sizes, &measured, 1.0);
}

fn steps() {
    let columns = ["threads", "markers"];
    head("Single steps by threads and markers (largest: M = 1023, N = 256)", &columns, "µs");
    for threads in [2, 16, 64, 128, 256] {
        step(&loops::largest(threads, 0));
    }
    for markers in [256, 1024, 4096] {
        step(&loops::largest(2, markers));
    }
    step(&loops::largest(256, 4096));
}

fn main() {
    checks();
    filters();
    mendings();
    walks();
    steps();
}
