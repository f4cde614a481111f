//! Records and datagrams laid before both programs: reading, the user data, the check and writing.

use pruvelaccio::raw::SizeAnswer;
use pruvelaccio::RecordOctets;
use reference::{Header, Refusal};

use crate::calendar;
use crate::cells::Cells;
use crate::laid;
use crate::library;
use crate::records::Case;
use crate::run::{as_record, as_record_mut, caught, side, Fences, Run};
use crate::tally::Kind;

/// Octets before and behind a lent output that no call may touch.
const GUARD: usize = 24;

type Reading = Result<(Header, usize), Refusal>;

// ---------------------------------------------------------------------------
// When two answers are the same

/// Number, block and place, and the length, which is 0 beside a refusal.
pub fn same_size(call: &str, plain: Result<usize, Refusal>, got: SizeAnswer) -> Result<(), String> {
    let expected = match plain {
        Ok(length) => SizeAnswer { number: 0, block: 0, place: 0, length },
        Err(Refusal { number, place, block }) => SizeAnswer { number, block, place, length: 0 },
    };
    if expected == got {
        return Ok(());
    }
    Err(format!("{call}: the second program gives {expected:?}, the library {got:?}"))
}

pub fn same_octets(call: &str, plain: &[u8], got: &[u8]) -> Result<(), String> {
    if plain == got {
        return Ok(());
    }
    let at = plain.iter().zip(got).position(|(a, b)| a != b);
    let texts = (hex(plain), hex(got));
    Err(format!(
        "{call}: octets differ from {at:?} on\nsecond program: {}\nlibrary: {}",
        texts.0, texts.1
    ))
}

/// The first octet in which two records differ, and the first cell.
pub fn different(expected: &RecordOctets, got: &RecordOctets) -> Option<String> {
    let at = expected.octets().iter().zip(got.octets()).position(|(a, b)| a != b)?;
    let cell = pruvelaccio::Header::from(expected).difference(&pruvelaccio::Header::from(got));
    let cell = cell.map_or("between the cells".to_string(), |path| format!("header{path}"));
    Some(format!("octet {at}, {cell}"))
}

/// The answer, and every octet of the record: done, it is the second program's with 0 in unused cells and between the
/// cells; refused, the record is as it was and the length 0.
pub fn same_reading(
    plain: &Reading,
    before: &RecordOctets,
    got: &SizeAnswer,
    after: &RecordOctets,
) -> Result<(), String> {
    let told = plain.as_ref().map(|(_, length)| *length).map_err(|refusal| *refusal);
    same_size("read", told, *got)?;
    let record = plain.as_ref().map_or(*before, |(record, _)| laid::alone(record));
    let difference = different(&record, after);
    difference.map_or(Ok(()), |at| Err(format!("read: what should be there beside what is: {at}")))
}

pub fn hex(octets: &[u8]) -> String {
    octets.iter().map(|octet| format!("{octet:02X}")).collect()
}

// ---------------------------------------------------------------------------
// Records

/// The check, and writing with exact room, with one octet less and with more. Gives the header of a valid record.
pub fn compare_record(run: &mut Run, case: &Case) -> Result<Option<Vec<u8>>, String> {
    run.tally.records += 1;
    caught(|| check_and_write(run, case)).map_err(|text| format!("{text}\ninput: {case:?}"))
}

fn check_and_write(run: &mut Run, case: &Case) -> Result<Option<Vec<u8>>, String> {
    let header = run.rubbish.header(case, &mut run.random);
    let plain = reference::check(&case.record, case.count);
    same_size("check", plain, library::check(&header, case.count as usize)?)?;
    run.tally.note(Kind::Check, &plain)?;
    run.tally.note_days(Kind::Check, calendar::of_record(case, &plain));
    run.tally.record_versions.note(case.record.version, plain.is_ok());
    let standard = case.record.blocks.iter().any(|block| block.standard_version.is_some());
    run.tally.needless_standards += u64::from(case.record.version == 1 && standard);
    let Ok(length) = plain else {
        // Too little room or enough: a refusal of the record comes before 11.
        let room = if run.random.coin() { 0 } else { run.random.index(400) };
        compare_write(run, case, &header, room)?;
        return Ok(None);
    };
    compare_write(run, case, &header, length - 1)?;
    let more = length + 1 + run.random.index(40);
    compare_write(run, case, &header, more)?;
    compare_write(run, case, &header, length)
}

/// Writing into room with a pattern in it and around it. Gives the octets written where there are any.
fn compare_write(
    run: &mut Run,
    case: &Case,
    header: &pruvelaccio::Header,
    room: usize,
) -> Result<Option<Vec<u8>>, String> {
    let mut own = run.random.octets(GUARD + room + GUARD);
    let mut other = own.clone();
    let lent = GUARD..GUARD + room;
    let plain = reference::write(&case.record, case.count, &mut other[lent.clone()]);
    let got = library::write(header, case.count as usize, &mut own[lent])?;
    run.tally.note(Kind::Write, &plain)?;
    run.tally.note_days(Kind::Write, calendar::of_record(case, &plain));
    same_size("write", plain, got)?;
    same_octets("write", &other, &own)?;
    Ok(plain.ok().map(|length| own[GUARD..GUARD + length].to_vec()))
}

// ---------------------------------------------------------------------------
// Datagrams

/// Reading and the user data; what is accepted is written again and must be the datagram's own header. Gives the
/// record that was read.
pub fn compare_datagram(run: &mut Run, datagram: &[u8]) -> Result<Option<Header>, String> {
    run.tally.datagrams += 1;
    let told = |text| format!("{text}\ninput: {}", hex(datagram));
    caught(|| read_and_write(run, datagram)).map_err(told)
}

fn read_and_write(run: &mut Run, datagram: &[u8]) -> Result<Option<Header>, String> {
    let plain = reference::read(datagram);
    compare_reading(run, datagram, &plain)?;
    run.tally.note(Kind::Read, &plain)?;
    let version = datagram.first().map_or(0, |octet| octet & 15);
    run.tally.datagram_versions.note(u32::from(version), plain.is_ok());
    same_data(datagram)?;
    let Ok((record, length)) = plain else { return Ok(None) };

    let case = Case { record, count: (datagram.len() - length) as u64 };
    run.tally.note_days(Kind::Read, calendar::of_record(&case, &Ok::<(), Refusal>(())));
    let header = run.rubbish.header(&case, &mut run.random);
    let written = compare_write(run, &case, &header, length)?.unwrap_or_default();
    same_octets("written again", &datagram[..length], &written)?;
    Ok(Some(case.record))
}

/// Datagram and record stand between fences, the record full of rubbish. No call may store to the datagram, nor to the
/// record if the datagram is refused; asking the system to see to that costs much, so it is done now and then.
fn compare_reading(run: &mut Run, datagram: &[u8], plain: &Reading) -> Result<(), String> {
    let before = run.rubbish.octets(&mut run.random);
    let Fences { datagram: from, record, .. } = &mut run.fences;
    from.hold(datagram, side(&mut run.random));
    record.hold(before.octets(), side(&mut run.random));
    if run.random.one_in(8) {
        from.close();
    }
    if plain.is_err() && run.random.one_in(4) {
        record.close();
    }
    let got = library::read(from.lent(), as_record_mut(record.lent_mut()))?;
    record.intact()?;
    same_reading(plain, before, &got, as_record(record.lent()))
}

/// The same part of the same datagram: where it starts and how long it is.
fn same_data(datagram: &[u8]) -> Result<(), String> {
    let part = reference::user_data(datagram);
    let expected = (part.as_ptr() as usize - datagram.as_ptr() as usize, part.len());
    let got = library::user_data(datagram)?;
    if expected == got {
        return Ok(());
    }
    Err(format!("user data: the second program gives {expected:?}, the library {got:?}"))
}

/// There and back: a valid record is written, user data put behind it, and the same record read.
pub fn compare_both_ways(run: &mut Run, case: &Case) -> Result<Vec<u8>, String> {
    let header = compare_record(run, case)?;
    let mut datagram = header.ok_or_else(|| format!("a valid record was refused: {case:?}"))?;
    let data = run.random.octets(case.count as usize);
    datagram.extend_from_slice(&data);
    let read = compare_datagram(run, &datagram)?;
    if read.as_ref() == Some(&case.record) {
        return Ok(datagram);
    }
    Err(format!("a written record came back changed\ninput: {case:?}\nread: {read:?}"))
}
