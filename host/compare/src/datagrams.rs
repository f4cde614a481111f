//! Datagrams: those of damaged records, and good ones changed, cut, lengthened; and octets without sense.

use reference::MAX_DATAGRAM;

use crate::emit::{emit, Extra};
use crate::headers::{compare_both_ways, compare_datagram};
use crate::random::Random;
use crate::records::{self, Case};
use crate::run::Run;
use crate::wholes;

/// A datagram of any record. Counts that no datagram has are cut down.
pub fn of_record(case: &Case, extra: Extra, random: &mut Random) -> Vec<u8> {
    let mut datagram = emit(&case.record, extra);
    let count = case.count.min(MAX_DATAGRAM as u64 + 40);
    let data = random.octets(count as usize);
    datagram.extend_from_slice(&data);
    datagram
}

/// A few bits or octets changed, an octet put in or taken out.
pub fn changed(datagram: &[u8], random: &mut Random) -> Vec<u8> {
    let mut octets = datagram.to_vec();
    for _ in 0..1 + random.below(3) {
        let at = random.index(octets.len());
        match random.below(8) {
            0 => octets[at] = random.next() as u8,
            1 => octets.insert(at, random.next() as u8),
            2 if octets.len() > 1 => drop(octets.remove(at)),
            _ => octets[at] ^= 1 << random.below(8),
        }
    }
    octets
}

/// Octets without sense. Most begin with a legal version, as the rest are refused at once.
pub fn noise(random: &mut Random) -> Vec<u8> {
    let length = random.index(90);
    let mut octets = random.octets(length);
    if random.below(8) > 0 {
        let version = records::version(random) as u8;
        octets.first_mut().into_iter().for_each(|octet| *octet = (*octet & 0xF0) | version);
    }
    // Fewer ones: fewer groups, and so a better chance to get to the end.
    if random.coin() {
        octets
            .iter_mut()
            .skip(1)
            .for_each(|octet| *octet &= random.next() as u8 & random.next() as u8);
    }
    octets
}

/// A valid record's datagram with what no record can say: a header size that is wrong, G10, fill bits that are 1.
pub fn with_extra(case: &Case, random: &mut Random) -> Vec<u8> {
    let mut extra = Extra::default();
    match random.below(3) {
        0 => extra.security = Some(random.index(case.record.blocks.len())),
        1 if random.coin() => extra.fill = 1 << random.below(7),
        1 => extra.fill = 1 + random.below(127),
        _ => extra.size = *random.pick(&[1, u32::MAX, 256, 1 << 15]),
    }
    of_record(case, extra, random)
}

/// Cut behind every octet of the header and some of the data. What was cut off still stands behind the part that is
/// lent, where a reader that looks too far would find it.
pub fn compare_cuts(run: &mut Run, datagram: &[u8]) -> Result<(), String> {
    for length in 0..datagram.len().min(200) {
        compare_datagram(run, &datagram[..length])?;
    }
    Ok(())
}

/// Around the longest datagram: one that has just the longest length, and longer ones.
pub fn compare_longest(run: &mut Run) -> Result<(), String> {
    let mut case = records::rich(&mut run.random);
    let octets = wholes::header_octets(&case);
    if wholes::load(&mut case, MAX_DATAGRAM as u64 - octets) {
        let mut datagram = compare_both_ways(run, &case)?;
        datagram.push(0);
        compare_datagram(run, &datagram)?;
    }
    let length = MAX_DATAGRAM + 1 + run.random.index(3000);
    let mut octets = run.random.octets(length);
    octets[..6].copy_from_slice(&[2, 8, 0, 0, 0, 1]);
    compare_datagram(run, &octets)?;
    Ok(())
}
