//! Several threads at once, each with a table of its own. The tables stand one behind the other in one piece of memory,
//! so that a call that went past its own table would be seen in a neighbour's.

use std::sync::Barrier;
use std::thread;

use pruvelaccio::{TableOctets, TABLE};
use reference::Board;

use crate::library;
use crate::pool::Pool;
use crate::run::{as_table_mut, Run};
use crate::tables;
use crate::tally::Tally;

const THREADS: usize = 8;
const LISTS: usize = 4;
const CALLS: usize = 100;

/// Lists of calls from the empty table on, each octet compared after each call.
fn lists(seed: u64, table: &mut TableOctets, start: &Barrier) -> Result<u64, String> {
    let mut run = Run::new(seed, Tally::new());
    start.wait();
    for _ in 0..LISTS {
        let pool = Pool::new(&mut run.random);
        let mut plain = Board::new();
        library::empty(table)?;
        for _ in 0..CALLS {
            let call = tables::call(&mut run, &pool, &plain);
            tables::compare_in(&mut run, table, &mut plain, &call)?;
            tables::same_image(&plain, table)?;
        }
    }
    Ok(run.tally.calls)
}

/// How many threads there were, and how many calls they made.
pub fn compare(seed: u64, stack: usize) -> Result<(usize, u64), String> {
    let mut memory = vec![0xA5; THREADS * TABLE];
    let start = &Barrier::new(THREADS);
    let calls = thread::scope(|scope| {
        let mut runs = Vec::new();
        for (i, octets) in memory.chunks_mut(TABLE).enumerate() {
            let thread = thread::Builder::new().stack_size(stack);
            let work = move || lists(seed + i as u64, as_table_mut(octets), start);
            runs.push(thread.spawn_scoped(scope, work).map_err(|e| format!("no thread: {e}"))?);
        }
        let mut calls = 0;
        for run in runs {
            calls += run.join().map_err(|_| "a thread ended in a panic".to_string())??;
        }
        Ok::<u64, String>(calls)
    })?;
    Ok((THREADS, calls))
}
