//! Field functions, proved against plain: same run, same inputs, release builds. The buffers are filled once with
//! random octets and are not cleared between runs.

mod fits;
mod plain;
mod proved;

use crate::random::Random;
use crate::timing::{median, nanoseconds};
use std::hint::black_box;

const OCTETS: usize = 8192;
const FIELDS: usize = 20_000;
const RUNS: usize = 201;

/// One field of the benchmark: its place, its bits and a number to write.
#[derive(Clone, Copy)]
struct Field {
    at: usize,
    w: usize,
    v: u32,
}

fn fields(random: &mut Random, widths: &[usize]) -> Vec<Field> {
    (0..FIELDS)
        .map(|_| {
            let w = widths[random.below(widths.len())];
            Field { at: random.below(8 * OCTETS - w), w, v: random.next() as u32 }
        })
        .collect()
}

/// Runs the two works by turns and prints their medians with the ratio.
fn compare(name: &str, proved: &mut dyn FnMut(), plain: &mut dyn FnMut()) {
    let (mut a, mut b) = (Vec::new(), Vec::new());
    for _ in 0..RUNS {
        a.push(nanoseconds(proved) / FIELDS as f64);
        b.push(nanoseconds(plain) / FIELDS as f64);
    }
    let (a, b) = (median(a), median(b));
    println!("| {name} | {a:.2} | {b:.2} | {:.2} |", a / b);
}

fn same_results(octets: &[u8], list: &[Field]) {
    let (mut one, mut two) = (octets.to_vec(), octets.to_vec());
    for f in list {
        assert_eq!(proved::read(octets, f.at, f.w), plain::read(octets, f.at, f.w));
        proved::write(&mut one, f.at, f.w, f.v);
        plain::write(&mut two, f.at, f.w, f.v);
        assert_eq!(proved::read(&one, f.at, f.w), f.v & ((1 << f.w) - 1));
    }
    assert_eq!(one, two);
}

fn measure(name: &str, octets: &[u8], list: &[Field]) {
    compare(
        &format!("read, {name}"),
        &mut || {
            list.iter().for_each(|f| {
                black_box(proved::read(octets, f.at, f.w));
            })
        },
        &mut || {
            list.iter().for_each(|f| {
                black_box(plain::read(octets, f.at, f.w));
            })
        },
    );
    let (mut one, mut two) = (octets.to_vec(), octets.to_vec());
    compare(
        &format!("write, {name}"),
        &mut || list.iter().for_each(|f| proved::write(black_box(&mut one), f.at, f.w, f.v)),
        &mut || list.iter().for_each(|f| plain::write(black_box(&mut two), f.at, f.w, f.v)),
    );
}

/// Asserts that the two sides agree; measures them unless that was all.
pub fn run(quick: bool) {
    let mut random = Random(0x2045_4700_1c00_0001);
    let octets: Vec<u8> = (0..OCTETS).map(|_| random.next() as u8).collect();
    let header = [1, 1, 1, 2, 3, 4, 5, 5, 6, 6, 7, 7, 12, 16, 20, 24];
    let all: Vec<usize> = (0..=24).collect();
    let cases: [(&str, &[usize]); 4] =
        [("bits of a header", &header), ("1 bit", &[1]), ("7 bits", &[7]), ("24 bits", &[24])];
    same_results(&octets, &fields(&mut random, &all));
    println!("proved and plain agree on {FIELDS} fields of 0 to 24 bits, read and written");
    if quick {
        return;
    }
    println!("\n| ns a field | proved | plain | ratio |\n|---|---|---|---|");
    for (name, widths) in cases {
        measure(name, &octets, &fields(&mut random, widths));
    }
}
