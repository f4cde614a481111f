//! Lays the proved library and the program `pending_list` beside the second program, `host/reference`, on many
//! inputs in both directions: records as structs and as whole octets of any kind, datagrams, lists of calls, tables as
//! whole octets of any kind. Of each answer the number, the place and the block are compared. Ends with status 1 at the
//! first difference, or if a refusal came up too seldom, in all or about a message block behind the first.

mod any_octets;
mod any_tables;
mod between;
mod calendar;
mod cells;
mod convert;
mod damage;
mod datagrams;
mod each_octet;
mod emit;
mod fenced;
mod flags;
mod headers;
mod illformed;
mod images;
mod laid;
mod library;
mod listing;
mod octets;
mod pairs;
mod pool;
mod program;
mod program_cases;
mod random;
mod records;
mod rubbish;
mod run;
mod selfcheck;
mod table_octets;
mod tables;
mod taken;
mod tally;
mod threads;
mod wholes;

use std::process::ExitCode;
use std::time::{Instant, SystemTime, UNIX_EPOCH};

use run::Run;
use tally::{Tally, LEAST};

const FIXED_SEED: u64 = 204_547_001;
const INPUTS: u64 = 200_000;

/// Inputs of `pending_list` for each seed.
const PROGRAMS: u64 = 250;

/// One whole record of octets, and one whole table, for so many other inputs.
const OCTETS_SHARE: u64 = 2;

/// Octets of stack for a thread: here tables are copied from hand to hand.
const STACK: usize = 8 << 20;

const USAGE: &str = "usage: compare [--seed N] [--inputs N]
  --seed N    one run with this seed, instead of a fixed one and one from the clock
  --inputs N  records, datagrams and calls for each seed (200000), and half as many whole records and tables of octets";

struct Options {
    seeds: Vec<u64>,
    inputs: u64,
}

fn clock() -> u64 {
    SystemTime::now().duration_since(UNIX_EPOCH).map_or(1, |time| time.as_nanos() as u64)
}

fn options() -> Option<Options> {
    let mut options = Options { seeds: vec![FIXED_SEED, clock()], inputs: INPUTS };
    let mut words = std::env::args().skip(1);
    while let Some(word) = words.next() {
        let number: u64 = words.next()?.parse().ok()?;
        match word.as_str() {
            "--seed" => options.seeds = vec![number],
            "--inputs" => options.inputs = number,
            _ => return None,
        }
    }
    Some(options)
}

/// All comparisons with one seed. Gives back the counts.
fn compare_with(seed: u64, inputs: u64) -> Result<Tally, String> {
    let octets = inputs / OCTETS_SHARE;
    let others = format!(
        "{octets} records and {octets} tables of octets, {PROGRAMS} inputs of pending_list"
    );
    println!("seed {seed}: {inputs} inputs, {others} (again: --seed {seed})");
    let mut run = Run::new(seed, Tally::new());
    let mut play = || {
        for _ in 0..PROGRAMS {
            let input = program::generated(&mut run.random);
            program::compare(&mut run, &input, None)?;
        }
        run.play_octets(octets)?;
        run.play_tables(octets)?;
        run.play(inputs)
    };
    play().map_err(|text: String| format!("seed {seed}: {text}"))?;
    Ok(run.tally)
}

/// Each seed's comparisons on a thread of its own: no run knows of another.
fn compare_all(options: &Options, mut tally: Tally) -> Result<Tally, String> {
    std::thread::scope(|scope| {
        let mut runs = Vec::new();
        for seed in &options.seeds {
            let thread = std::thread::Builder::new().stack_size(STACK);
            let run = thread.spawn_scoped(scope, || compare_with(*seed, options.inputs));
            runs.push(run.map_err(|error| format!("no thread: {error}"))?);
        }
        for run in runs {
            tally.add(&run.join().map_err(|_| "a run ended in a panic".to_string())??);
        }
        Ok(tally)
    })
}

/// What is tried once, whatever the seeds are: every octet of a table, every octet in a flag, several threads.
fn compare_once() -> Result<(), String> {
    println!("flags: every octet in each of {} flags, in both versions", flags::compare_all()?);
    let each_octet::Changes { tried, done } = each_octet::compare_flags(FIXED_SEED)?;
    println!(
        "flags: {tried} changes of a row's and a key's, after {done} of them all four calls done"
    );
    let each_octet::Changes { tried, done } = each_octet::compare_octets(FIXED_SEED)?;
    println!(
        "octets: {tried} changes of one octet of a table, after {done} of them all four calls done"
    );
    let (threads, calls) = threads::compare(FIXED_SEED, STACK)?;
    println!("threads: {threads} at once, {calls} calls, each on a table of its own");
    Ok(())
}

fn compare(options: &Options) -> Result<Tally, String> {
    if !program::path().is_file() {
        let path = program::path();
        return Err(format!(
            "{} is missing: build it with `host/build`",
            path.display()
        ));
    }
    println!("self-check: {} damaged answers, each reported", selfcheck::run()?);
    compare_once()?;
    let mut run = Run::new(FIXED_SEED, Tally::new());
    program_cases::compare_named(&mut run)?;
    println!("named inputs of pending_list: {}", run.tally.programs);
    compare_all(options, run.tally)
}

/// Each refusal of each call has to come up often enough, and those that tell a block in later blocks too, unless the
/// run is shorter than it is meant to be.
fn enough(tally: &Tally) -> Result<(), String> {
    let lacking = tally.lacking();
    if lacking.is_empty() {
        return Ok(());
    }
    let text = format!("fewer than {LEAST} times: {}", lacking.join(", "));
    if tally.inputs() < INPUTS {
        println!("{text} (a short run: this does not count)");
        return Ok(());
    }
    Err(text)
}

fn main() -> ExitCode {
    let Some(options) = options() else {
        eprintln!("{USAGE}");
        return ExitCode::from(2);
    };
    let start = Instant::now();
    let outcome = compare(&options).and_then(|tally| {
        tally.print();
        enough(&tally)?;
        Ok(tally)
    });
    let seconds = start.elapsed().as_secs_f64();
    match outcome {
        Ok(t) => {
            let inputs = t.inputs();
            let parts =
                format!("{} records, {} datagrams, {} calls", t.records, t.datagrams, t.calls);
            let others = format!("{} listing rows, {} inputs of pending_list", t.rows, t.programs);
            let octets = format!("{} records and {} tables of octets", t.octets, t.tables);
            println!(
                "compare: {inputs} inputs ({parts}), {octets}, {others}, no difference, {seconds:.1} s"
            );
            ExitCode::SUCCESS
        }
        Err(text) => {
            println!("compare: FAILED after {seconds:.1} s: {text}");
            ExitCode::FAILURE
        }
    }
}
