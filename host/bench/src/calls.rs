//! The calls, proved against fast: same inputs, by turns. Both sides are lent the record and the table and work on them
//! where they lie; what the proved calls took while these went over by value stands in docs/BENCHMARKS.md.

use crate::fast;
use crate::same::Call;
use crate::samples::{self, Sample};
use crate::timing::{by_turns, clock_cost, nanoseconds, repeated, Turn};
use pruvelaccio::{Key, Refusal, Table};
use std::hint::black_box;

const RUNS: usize = 301;
const TABLE_RUNS: usize = 301;
const TABLES: usize = 8;

/// One line: the medians in nanoseconds, and the octets of header or text that a call goes over.
struct Line {
    name: String,
    octets: Option<usize>,
    proved: f64,
    fast: f64,
    words: Option<f64>,
    by_value: Option<f64>,
}

/// Octets a second, in millions.
fn rate(octets: Option<usize>, nanoseconds: f64) -> String {
    octets.map_or("-".to_string(), |n| format!("{:.1}", n as f64 * 1000.0 / nanoseconds))
}

/// Two cells of a line: a side's nanoseconds, and how many times as long the proved call takes.
fn beside(proved: f64, side: Option<f64>) -> String {
    side.map_or("- | -".to_string(), |ns| format!("{ns:.0} | {:.1}", proved / ns))
}

fn print(line: &Line) {
    let Line { name, octets, proved, fast, words, by_value } = line;
    let count = octets.map_or("-".to_string(), |n| n.to_string());
    println!(
        "| {name} | {count} | {proved:.0} | {} | {} | {} | {} | {} |",
        beside(*proved, Some(*fast)),
        beside(*proved, *words),
        beside(*proved, *by_value),
        rate(*octets, *proved),
        rate(*octets, *fast),
    );
}

/// So many calls in one reading of the clock that it takes some tens of microseconds.
fn batch(octets: usize) -> usize {
    (2000 / octets).clamp(4, 64)
}

/// The sides of a call on a sample: proved, fast, and words where the call goes over bits.
fn compared(name: &str, sample: &Sample, sides: &mut [Turn]) -> Line {
    let times = by_turns(RUNS, sides);
    Line {
        name: format!("{name}, {}", sample.name),
        octets: Some(sample.octets),
        proved: times[0],
        fast: times[1],
        words: times.get(2).copied(),
        by_value: None,
    }
}

fn fast_reading(s: &Sample, read: fast::Read) -> Turn<'_> {
    let mut record = Box::new(fast::NO_HEADER);
    repeated(batch(s.octets), move || {
        black_box(&read(black_box(&s.datagram), black_box(&mut record)));
    })
}

fn reading(s: &Sample) -> Line {
    let mut record = Box::new(fast::NO_HEADER);
    let proved = repeated(batch(s.octets), move || {
        black_box(&pruvelaccio::read_into(black_box(&s.datagram), black_box(&mut record)));
    });
    let (fast, words) = (fast_reading(s, fast::read), fast_reading(s, fast::by_words::read));
    compared("read", s, &mut [proved, fast, words])
}

fn fast_writing(s: &Sample, write: fast::Write) -> Turn<'_> {
    let mut out = vec![0; 8192];
    repeated(batch(s.octets), move || {
        black_box(&write(black_box(&s.header), s.count, black_box(&mut out)));
    })
}

fn writing(s: &Sample) -> Line {
    let mut out = vec![0; 8192];
    let proved = repeated(batch(s.octets), move || {
        black_box(&pruvelaccio::write(black_box(&s.header), s.count, black_box(&mut out)));
    });
    let (fast, words) = (fast_writing(s, fast::write), fast_writing(s, fast::by_words::write));
    compared("write", s, &mut [proved, fast, words])
}

fn checking(s: &Sample) -> Line {
    let times = batch(s.octets);
    let proved = repeated(times, || {
        black_box(&pruvelaccio::check(black_box(&s.header), s.count));
    });
    let fast = repeated(times, || {
        black_box(&fast::check(black_box(&s.header), s.count));
    });
    compared("check", s, &mut [proved, fast])
}

/// A side of a table call: some tables are put back, then one call on each is timed. One table alone would be too
/// short for the clock, many would not fit the cache.
fn on_tables<'a>(
    clock: f64,
    base: &'a Table,
    mut call: impl FnMut(&mut Table) -> Result<(), Refusal> + 'a,
) -> Turn<'a> {
    let mut tables = vec![*base; TABLES];
    Box::new(move || {
        tables.fill(*base);
        let mut done = 0;
        let all = nanoseconds(&mut || {
            done = black_box(&mut tables).iter_mut().filter_map(|t| call(t).ok()).count();
        });
        assert_eq!(done, TABLES);
        (all - clock).max(1.0) / TABLES as f64
    })
}

fn changing(name: &str, base: &Table, call: &Call) -> Line {
    let clock = clock_cost();
    let mut sides = [
        on_tables(clock, base, |t| call.proved(t)),
        on_tables(clock, base, |t| call.fast(t)),
        on_tables(clock, base, |t| call.by_value(t)),
    ];
    let times = by_turns(TABLE_RUNS, &mut sides);
    let name = name.to_string();
    let (proved, fast, by_value) = (times[0], times[1], Some(times[2]));
    Line { name, octets: None, proved, fast, words: None, by_value }
}

/// All rows of a table's listing, row 0 first: the octets.
fn listed(t: &Table, out: &mut [u8], row: impl Fn(&Table, u32, &mut [u8]) -> usize) -> usize {
    (0..=t.count).map(|number| row(black_box(t), number, black_box(out))).sum()
}

fn listing(t: &Table) -> Line {
    let proved_row = |t: &Table, n: u32, out: &mut [u8]| t.list_row(n, out).expect("listed");
    let fast_row = |t: &Table, n: u32, out: &mut [u8]| fast::list_row(t, n, out).expect("listed");
    let (mut one, mut two) = (vec![0; 4096], vec![0; 4096]);
    let octets = listed(t, &mut two, fast_row);
    let proved = repeated(1, || {
        black_box(listed(t, &mut one, proved_row));
    });
    let fast = repeated(1, || {
        black_box(listed(t, &mut two, fast_row));
    });
    let times = by_turns(51, &mut [proved, fast]);
    let name = format!("listing, {} rows", t.count);
    let (proved, fast) = (times[0], times[1]);
    Line { name, octets: Some(octets), proved, fast, words: None, by_value: None }
}

fn table_calls(post: &Sample, large: &Sample) -> Vec<Line> {
    let (one, most) = (samples::almost_empty(), samples::nearly_full());
    let (answer, named) = (samples::small(), samples::named_receipt());
    let (first, middle): (Key, Key) = (samples::first_key(), samples::middle_key());
    let mut other = *post.header;
    other.blocks.list[0].times.origin.stamp.dtg = samples::dtg(28, 0);
    vec![
        changing("post, typical, 1 row", &one, &Call::Post(&other, 1, post.count)),
        changing("post, typical, 31 rows", &most, &Call::Post(&post.header, 1, post.count)),
        changing("post, largest, 31 rows", &most, &Call::Post(&large.header, 16, large.count)),
        changing("receipt, small, 1 row", &one, &Call::Receipt(&answer.header, 1, 0)),
        changing("receipt, by name, 31 rows", &most, &Call::Receipt(&named.header, 1, 0)),
        changing("release, 1 row", &one, &Call::Release(&first)),
        changing("release, 31 rows", &most, &Call::Release(&middle)),
    ]
}

fn explain(list: &[Sample]) {
    println!("\n## Calls\n");
    for s in list {
        println!("{}: {} header octets, {} octets of data.", s.name, s.octets, s.count);
    }
    println!(
        "Record {} octets, table {} octets. Rows of the table with 31 rows have 16 recipients by name; the row that is \
         posted, settled or released stands in the middle.",
        size_of::<pruvelaccio::Header>(),
        size_of::<Table>()
    );
    println!(
        "Reading determines every cell of the record, on both sides, because unused cells have to be 0; a refusal \
         leaves the record of proved as it was, that of fast not. Output buffers are not cleared between runs. The \
         tables are put back outside the time."
    );
    println!(
        "proved: the wrapper's call, record and table lent. fast: safe Rust by reference, fields by octet fragments \
         as the proved code takes them, the table changed in place. words: fast with fields out of 64-bit words. by \
         value: fast behind a signature that takes all by value, record and table copied in, the table copied out \
         and stored."
    );
    println!(
        "What proved took while record or table went by value is in docs/BENCHMARKS.md; the other columns are made \
         as they were then.\n"
    );
}

pub fn run() {
    let list =
        [samples::small(), samples::typical(), samples::largest(), samples::largest_posting()];
    explain(&list);
    println!(
        "| ns a call | octets | proved | fast | ratio | words | ratio | by value | ratio | proved MB/s | fast MB/s |"
    );
    println!("|---|---|---|---|---|---|---|---|---|---|---|");
    let old = samples::typical_old();
    let heads = [&list[0], &list[1], &old, &list[2]];
    heads.iter().for_each(|s| print(&reading(s)));
    heads.iter().for_each(|s| print(&writing(s)));
    heads.iter().for_each(|s| print(&checking(s)));
    table_calls(&list[1], &list[3]).iter().for_each(print);
    print(&listing(&samples::full()));
}

fn growth_line(s: &Sample) {
    let (read, write) = (reading(s), writing(s));
    let each = |ns: f64| ns / s.octets as f64;
    println!(
        "| {} | {} | {:.2} | {:.2} | {:.1} | {:.2} | {:.2} | {:.1} |",
        s.name,
        s.octets,
        each(read.proved),
        each(read.fast),
        read.proved / read.fast,
        each(write.proved),
        each(write.fast),
        write.proved / write.fast,
    );
}

/// How the cost of an octet changes with the header's size.
pub fn growth() {
    println!("\n## Growth with the blocks\n");
    println!(
        "| ns an octet | octets | read, proved | fast | ratio | write, proved | fast | ratio |"
    );
    println!("|---|---|---|---|---|---|---|---|");
    for count in [1, 2, 4, 8, 16] {
        growth_line(&samples::plain_blocks(count));
    }
    for count in [1, 2, 4, 8, 16] {
        growth_line(&samples::full_blocks(count));
    }
}
