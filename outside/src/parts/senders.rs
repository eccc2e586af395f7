//! Many senders: tables that are nearly all held, and the same with one or two changes.

use plain::Array;

use crate::files::TableFile;
use crate::parts::read;
use crate::run::Run;
use crate::together::{self, Found};
use crate::view::View;
use crate::watch::{fail, hex};
use crate::{balanced, changes, many_senders};

const CHANGED: usize = 8;

pub fn senders(run: &mut Run) {
    let file = many_senders::array(&mut run.random).bytes();
    let array = read(&file);
    let table = balanced::draft(&mut run.random, &array);
    let answer = see(run, &file, &array, &table);
    together::count_draft(&mut run.tally, answer);
    for _ in 0..CHANGED {
        let mut changed = table.clone();
        for _ in 0..run.random.between(1, 2) {
            changes::change(&mut run.random, &array, &mut changed);
        }
        see(run, &file, &array, &changed);
    }
}

/// The answer of both sides, which must be the one that is due by rules 3 and 4.
fn see(run: &mut Run, file: &[u8], array: &Array, table: &TableFile) -> u64 {
    let bytes = table.bytes();
    let answer = run.check(file, &bytes);
    let view = View::of(array, table);
    let found = Found::of(&view);
    let (code, due) = (handover::code(answer), found.due());
    let differs = match code {
        0 | 3 | 4 => answer != due,
        5 => due != 0,
        _ => false,
    };
    if differs {
        let inputs = [("array", hex(file.to_vec())), ("table", hex(bytes))];
        fail(&format!("check gives {answer:#x}, but {due:#x} is due"), &inputs);
    }
    found.count(&mut run.tally, code);
    answer
}
