//! Whole tables of octets laid before both programs: the library gets the octets as they are, the second program what
//! they hold by the rules of the layout. The table stands between fences, and where a call is to be refused it now and
//! then cannot be stored to.

use pruvelaccio::raw::{Answer, SizeAnswer};
use pruvelaccio::{KeyOctets, TableOctets};
use reference::{Board, Header, Key, Refusal};

use crate::any_tables;
use crate::fenced::Fenced;
use crate::headers::{same_octets, same_size};
use crate::images;
use crate::library;
use crate::octets::Scene;
use crate::random::Random;
use crate::records::Case;
use crate::run::{as_key, as_table, as_table_mut, caught, side, Run};
use crate::tables::{self, same_table, Told};
use crate::taken;
use crate::tally::Kind;

/// A record for a call, in both programs' forms.
pub struct Lending {
    pub plain: Header,
    pub header: Box<pruvelaccio::Header>,
    pub block: u32,
    pub count: u64,
}

/// What goes to the four calls with a table.
pub struct Arguments {
    pub post: Lending,
    pub receipt: Lending,
    pub key: (Key, KeyOctets),
    /// The row of the listing.
    pub row: u32,
}

/// What the four calls answered.
pub struct Answers {
    pub post: Told,
    pub receipt: Told,
    pub release: Told,
    pub list_row: Result<usize, Refusal>,
}

fn lending(run: &mut Run, case: Case) -> Lending {
    let header = Box::new(run.rubbish.header(&case, &mut run.random));
    let block = tables::block_number(case.record.blocks.len(), &mut run.random);
    Lending { plain: case.record, header, block, count: case.count }
}

/// Arguments that suit some rows.
fn arguments(run: &mut Run, scene: &Scene, suited: &Board) -> Arguments {
    let post = tables::record(run, &scene.pool, suited, true);
    let receipt = tables::record(run, &scene.pool, suited, false);
    let (post, receipt) = (lending(run, post), lending(run, receipt));
    let key = tables::key(&scene.pool, suited, &mut run.random);
    let key = any_tables::key(run, &key);
    let row = run.random.below(suited.rows.len() as u32 + 3);
    Arguments { post, receipt, key: (taken::key(&key), key), row }
}

/// Any octets and replaced ones by turns.
pub fn compare_turn(run: &mut Run, scene: &Scene, turn: u64) -> Result<(), String> {
    let full = run.random.one_in(8);
    let base = if full { &scene.full } else { run.random.pick(&scene.good) };
    let table = match turn % 2 {
        0 => any_tables::any(run),
        _ => any_tables::replaced(run, base),
    };
    let arguments = arguments(run, scene, &base.plain);
    run.tally.tables += 1;
    let answers = compare_calls(run, &table, &arguments)?;
    run.tally.note(Kind::TablePost, &answers.post)?;
    run.tally.note(Kind::TableReceipt, &answers.receipt)?;
    run.tally.note(Kind::TableRelease, &answers.release)?;
    run.tally.note(Kind::TableListRow, &answers.list_row)
}

/// All four calls on a table, each on the octets as they are given.
pub fn compare_calls(
    run: &mut Run,
    octets: &TableOctets,
    arguments: &Arguments,
) -> Result<Answers, String> {
    caught(|| calls(run, octets, arguments)).map_err(|text| describe(text, octets, arguments))
}

fn describe(text: String, octets: &TableOctets, arguments: &Arguments) -> String {
    let lent = |l: &Lending| format!("{:?}, data {}, block {}", l.plain, l.count, l.block);
    let Arguments { post, receipt, key, row } = arguments;
    let input = format!("post {}\nreceipt {}\nkey {:?}", lent(post), lent(receipt), key.0);
    format!("{text}\ninput: {input}\nrow {row}\noctets that hold {:?}", taken::table(octets))
}

fn calls(run: &mut Run, octets: &TableOctets, with: &Arguments) -> Result<Answers, String> {
    let mut plain = taken::table(octets);
    let Arguments { post: p, receipt: r, key: (key, key_octets), row } = with;
    let Run { random, fences, .. } = run;
    fences.key.hold(key_octets.octets(), side(random));
    fences.key.close();
    let mut lent = LentTable { random, table: &mut fences.table, octets };
    let post = lent.call(
        &mut plain,
        |board| reference::post(board, &p.plain, p.block, p.count),
        |table| library::post(table, &*p.header, p.block, p.count as usize),
    )?;
    let receipt = lent.call(
        &mut plain,
        |board| reference::receipt(board, &r.plain, r.block, r.count),
        |table| library::receipt(table, &*r.header, r.block, r.count as usize),
    )?;
    let release = lent.call(
        &mut plain,
        |board| reference::release(board, key),
        |table| library::release(table, as_key(fences.key.lent())),
    )?;
    let list_row = lent.list_row(&plain, *row, &mut fences.out)?;
    Ok(Answers { post, receipt, release, list_row })
}

/// The table's octets, and the place between fences where they are lent.
struct LentTable<'a> {
    random: &'a mut Random,
    table: &'a mut Fenced,
    octets: &'a TableOctets,
}

impl LentTable<'_> {
    /// One call to both programs. `plain` holds the table's rows, afterwards as before.
    fn call(
        &mut self,
        plain: &mut Board,
        second: impl FnOnce(&mut Board) -> Told,
        proved: impl FnOnce(&mut TableOctets) -> Result<Answer, String>,
    ) -> Result<Told, String> {
        let told = second(plain);
        let mut expected = *self.octets;
        if told.is_ok() {
            let after = std::mem::replace(plain, taken::table(self.octets));
            expected = images::after(self.octets, plain, &after);
        }
        self.table.hold(self.octets.octets(), side(self.random));
        if told.is_err() && self.random.one_in(4) {
            self.table.close();
        }
        let got = proved(as_table_mut(self.table.lent_mut()))?;
        same_table(told, &expected, got, as_table(self.table.lent()))?;
        self.table.intact()?;
        Ok(told)
    }

    /// A row of the listing, into exact room, an octet less, none, or more.
    fn list_row(
        &mut self,
        plain: &Board,
        row: u32,
        out: &mut Fenced,
    ) -> Result<Result<usize, Refusal>, String> {
        let length = reference::listing(plain, row).map_or(0, |text| text.len());
        let more = length + self.random.index(64);
        let room = *self.random.pick(&[length, length.saturating_sub(1), 0, more]);
        let before = self.random.octets(room);
        let mut other = before.clone();
        let listed = reference::list_row(plain, row, &mut other);
        out.hold(&before, side(self.random));
        if listed.is_err() && self.random.one_in(4) {
            out.close();
        }
        let got = self.listed(row, out)?;
        same_size("list_row", listed, got)?;
        same_octets("list_row", &other, out.lent())?;
        out.intact()?;
        Ok(listed)
    }

    /// The library's row; the table stays as it is, and now and then cannot be stored to.
    fn listed(&mut self, row: u32, out: &mut Fenced) -> Result<SizeAnswer, String> {
        self.table.hold(self.octets.octets(), side(self.random));
        if self.random.one_in(4) {
            self.table.close();
        }
        let got = library::list_row(as_table(self.table.lent()), row, out.lent_mut())?;
        if as_table(self.table.lent()) != self.octets {
            return Err("the listing has changed the table".to_string());
        }
        Ok(got)
    }
}
