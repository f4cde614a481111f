//! The samples of refused datagrams tell what the library tells.

use pruvelaccio::{read, Refusal};
use std::fs;
use std::path::Path;

/// A line of the sample: the octets, then number, place and block.
fn sample(line: &str) -> (Vec<u8>, Refusal) {
    let parts: Vec<&str> = line.split(' ').collect();
    let [digits, number, place, block] = parts[..] else { panic!("four parts: {line}") };
    let octet = |at: usize| u8::from_str_radix(&digits[at..at + 2], 16).expect("two digits");
    let octets = (0..digits.len()).step_by(2).map(octet).collect();
    let told = |part: &str| part.parse().expect("a number");
    let place = place.parse().expect("a place");
    (octets, Refusal { number: told(number), place, block: told(block) })
}

#[test]
fn refused_as_the_sample_says() {
    let file = Path::new(env!("CARGO_MANIFEST_DIR")).join("../../samples/refused.txt");
    let text = fs::read_to_string(file).expect("the sample");
    let mut numbers = Vec::new();
    for line in text.lines().filter(|line| !line.starts_with('#')) {
        let (datagram, refusal) = sample(line);
        assert_eq!(read(&datagram).map(|read| read.length), Err(refusal), "{line}");
        numbers.push(refusal.number);
    }
    numbers.dedup();
    assert_eq!(numbers, [3, 41, 42, 43, 44, 45, 46, 47, 48, 49, 51, 52, 53, 54]);
}
