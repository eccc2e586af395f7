//! Tables of all sorts for valid arrays.

use crate::files::ArrayFile;
use crate::parts::read;
use crate::run::Run;
use crate::{arrays, claims, damage, tables};

pub fn small(run: &mut Run) {
    let file = if run.random.once_in(2) { arrays::small(&mut run.random) } else { arrays::busy(&mut run.random) };
    three(run, &file);
}

pub fn large(run: &mut Run) {
    let file = arrays::large(&mut run.random);
    three(run, &file);
    let bytes = file.bytes();
    let table = tables::full(&mut run.random, &read(&bytes)).bytes();
    run.check(&bytes, &table);
    run.tally.other("longest arrays", u64::from(bytes.len() == 17_424));
    run.tally.other("longest tables", u64::from(table.len() == 59_516));
}

/// 256 claims where there are agents enough for one set: held, with faults of order, and one figure away.
pub fn crowded(run: &mut Run) {
    let agents = run.random.between(256, 300);
    let file = arrays::line(&mut run.random, agents).bytes();
    let array = read(&file);
    let mut table = tables::crowded(&mut run.random, &array);
    run.check(&file, &table.bytes());
    let faults = run.random.pick(&[&[31][..], &[31], &[31, 21], &[31, 30]]);
    let damaged = damage::table(&mut run.random, &table, faults);
    run.check(&file, &damaged);
    claims::nudge(&mut run.random, &array, &table.balances, &mut table.claims);
    run.check(&file, &table.bytes());
}

/// One table of each sort.
fn three(run: &mut Run, file: &ArrayFile) {
    let file = file.bytes();
    let array = read(&file);
    for (sort, draft) in [tables::accepted, tables::nearly, tables::broken].into_iter().enumerate() {
        let table = draft(&mut run.random, &array).bytes();
        let answer = run.check(&file, &table);
        run.tally.share(sort, answer);
    }
    run.remark(&file);
}
