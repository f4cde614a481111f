//! Whole records of octets laid before both programs: the library gets the octets as they are, the second program what
//! they hold by the rules of the layout. The record stands between fences and cannot be stored to.

use pruvelaccio::raw::Answer;
use pruvelaccio::{RecordOctets, TableOctets};
use reference::{Board, Header};

use crate::any_octets::{self, Lending};
use crate::headers::{same_octets, same_size};
use crate::illformed;
use crate::images;
use crate::library;
use crate::pool::{self, Pool};
use crate::random::Random;
use crate::run::{as_record, caught, side, Run};
use crate::tables::{same_table, Pair, Told};
use crate::taken;
use crate::tally::Kind;

/// No header has more octets.
pub const ROOM: usize = 8192;

/// Tables made of one pool, for a number of records.
pub struct Scene {
    pub pool: Pool,
    pub good: Vec<Pair>,
    pub full: Pair,
    ill_formed: Pair,
}

impl Scene {
    pub fn new(run: &mut Run) -> Scene {
        let pool = Pool::new(&mut run.random);
        let boards = [0, 1, 3, 8, 32].map(|rows| pool::table(&pool, rows, &mut run.random));
        let spoiled = illformed::any_spoiled(&pool, &mut run.random);
        let mut pair = |plain| Pair { table: run.rubbish.table(&plain, &mut run.random), plain };
        let mut good = boards.map(&mut pair).into_iter().collect::<Vec<_>>();
        let full = good.pop().expect("five tables");
        Scene { pool, good, full, ill_formed: pair(spoiled) }
    }

    /// A table for a call, and one that the call's record is made for: of a table that is not well formed nothing else
    /// is looked at.
    fn pairs(&self, random: &mut Random) -> (&Pair, &Pair) {
        let good = random.pick(&self.good);
        match random.below(16) {
            0 => (&self.ill_formed, good),
            1 | 2 => (&self.full, &self.full),
            _ => (good, good),
        }
    }
}

/// Any octets and replaced ones by turns; of these now and then a record that breaks a rule.
pub fn compare_turn(run: &mut Run, scene: &Scene, turn: u64) -> Result<(), String> {
    let (pair, suited) = scene.pairs(&mut run.random);
    let lending = match turn % 2 {
        0 => any_octets::any(run),
        _ if turn % 16 == 1 => any_octets::broken(run),
        _ => any_octets::replaced(run, &scene.pool, &suited.plain),
    };
    run.tally.octets += 1;
    let header = taken::header(&lending.record);
    let Lending { count, block, .. } = lending;
    let told = |text| {
        let input = format!("octets that hold {header:?}, data {count}, block {block}");
        format!("{text}\ninput: {input}\ntable before: {:?}", pair.plain)
    };
    caught(|| lend(run, &lending, &header, pair)).map_err(told)
}

fn lend(run: &mut Run, lending: &Lending, header: &Header, pair: &Pair) -> Result<(), String> {
    let fence = side(&mut run.random);
    run.fences.record.hold(lending.record.octets(), fence);
    run.fences.record.close();
    let length = compare_check(run, lending, header)?;
    for room in rooms(&mut run.random, length) {
        compare_write(run, lending, header, room)?;
    }
    compare_on_table(run, &POST, lending, header, pair)?;
    compare_on_table(run, &RECEIPT, lending, header, pair)?;
    let same = as_record(run.fences.record.lent()) == &lending.record;
    if !same {
        return Err("the record has changed".to_string());
    }
    run.fences.record.intact()
}

fn compare_check(
    run: &mut Run,
    lending: &Lending,
    header: &Header,
) -> Result<Option<usize>, String> {
    let record = as_record(run.fences.record.lent());
    let plain = reference::check(header, lending.count);
    same_size("check", plain, library::check(record, lending.count as usize)?)?;
    run.tally.note(Kind::OctetsCheck, &plain)?;
    Ok(plain.ok())
}

/// An octet too few, exact room and more than that; where the record is refused, none or any.
fn rooms(random: &mut Random, length: Option<usize>) -> Vec<usize> {
    match length {
        Some(length) => vec![length - 1, length, length + random.index(ROOM - length + 1)],
        None => vec![0, *random.pick(&[1, 16, 400, ROOM])],
    }
}

/// The output stands between fences too, and now and then cannot be stored to if the call is to be refused.
fn compare_write(
    run: &mut Run,
    lending: &Lending,
    header: &Header,
    room: usize,
) -> Result<(), String> {
    let before = run.random.octets(room);
    let mut other = before.clone();
    let plain = reference::write(header, lending.count, &mut other);
    let out = &mut run.fences.out;
    out.hold(&before, side(&mut run.random));
    if plain.is_err() && run.random.one_in(4) {
        out.close();
    }
    let record = as_record(run.fences.record.lent());
    let got = library::write(record, lending.count as usize, out.lent_mut())?;
    same_size("write", plain, got)?;
    same_octets("write", &other, out.lent())?;
    out.intact()?;
    run.tally.note(Kind::OctetsWrite, &plain)
}

/// A call that takes a record to the table, as each of the two programs has it.
struct OnTable {
    kind: Kind,
    plain: fn(&mut Board, &Header, u32, u64) -> Told,
    proved: fn(&mut TableOctets, &RecordOctets, u32, usize) -> Result<Answer, String>,
}

const POST: OnTable =
    OnTable { kind: Kind::OctetsPost, plain: reference::post, proved: library::post };
const RECEIPT: OnTable =
    OnTable { kind: Kind::OctetsReceipt, plain: reference::receipt, proved: library::receipt };

fn compare_on_table(
    run: &mut Run,
    call: &OnTable,
    lending: &Lending,
    header: &Header,
    pair: &Pair,
) -> Result<(), String> {
    let record = as_record(run.fences.record.lent());
    let Lending { count, block, .. } = *lending;
    let mut plain = pair.plain.clone();
    let told = (call.plain)(&mut plain, header, block, count);
    let mut table = pair.table;
    let got = (call.proved)(&mut table, record, block, count as usize)?;
    same_table(told, &images::after(&pair.table, &pair.plain, &plain), got, &table)?;
    run.tally.note(call.kind, &told)
}
