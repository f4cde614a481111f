//! One run: which inputs come in which turn. Damages and spoiled tables go round, so that each has its turn.

use std::any::Any;
use std::panic::{catch_unwind, AssertUnwindSafe};

use pruvelaccio::{Header, KeyOctets, RecordOctets, Table, TableOctets, KEY, RECORD, TABLE};

use crate::calendar;
use crate::cells::Places;
use crate::damage::{self, Damage};
use crate::datagrams;
use crate::emit::Extra;
use crate::fenced::{self, Fenced, Side};
use crate::headers::{compare_both_ways, compare_datagram, compare_record};
use crate::illformed;
use crate::octets::{self, Scene};
use crate::pairs;
use crate::random::Random;
use crate::records::{self, Case};
use crate::rubbish::Rubbish;
use crate::table_octets;
use crate::tables;
use crate::tally::{Kind, Tally};

/// A panic of either program is a difference like others, so that its input is told.
pub fn caught<T>(work: impl FnOnce() -> Result<T, String>) -> Result<T, String> {
    let stopped = |payload: Box<dyn Any + Send>| {
        let text = payload.downcast_ref::<String>().map(String::as_str);
        let text = text.or(payload.downcast_ref::<&str>().copied());
        Err(format!("a panic: {}", text.unwrap_or("without words")))
    };
    catch_unwind(AssertUnwindSafe(work)).unwrap_or_else(stopped)
}

/// Where a datagram, a record, a table, a key and an output are lent.
pub struct Fences {
    pub datagram: Fenced,
    pub record: Fenced,
    pub table: Fenced,
    pub key: Fenced,
    pub out: Fenced,
}

impl Fences {
    pub fn new() -> Fences {
        let sizes = [fenced::LARGEST, RECORD, TABLE, KEY, octets::ROOM];
        let [datagram, record, table, key, out] = sizes.map(Fenced::new);
        Fences { datagram, record, table, key, out }
    }
}

pub fn side(random: &mut Random) -> Side {
    if random.coin() {
        Side::Front
    } else {
        Side::Back
    }
}

/// The record that was put between fences.
pub fn as_record(lent: &[u8]) -> &RecordOctets {
    RecordOctets::lent(lent.try_into().expect("a record's octets"))
}

pub fn as_record_mut(lent: &mut [u8]) -> &mut RecordOctets {
    RecordOctets::lent_mut(lent.try_into().expect("a record's octets"))
}

/// The table, and the key, that were put between fences.
pub fn as_table(lent: &[u8]) -> &TableOctets {
    TableOctets::lent(lent.try_into().expect("a table's octets"))
}

pub fn as_table_mut(lent: &mut [u8]) -> &mut TableOctets {
    TableOctets::lent_mut(lent.try_into().expect("a table's octets"))
}

pub fn as_key(lent: &[u8]) -> &KeyOctets {
    KeyOctets::lent(lent.try_into().expect("a key's octets"))
}

/// Whose turn it is.
fn turn_of<T>(list: &[T], turn: u64) -> usize {
    (turn % list.len() as u64) as usize
}

pub struct Run {
    pub random: Random,
    pub rubbish: Rubbish,
    pub damages: Vec<Damage>,
    /// The places among them of those between fields.
    between: Vec<usize>,
    /// Of a record.
    pub places: Places,
    /// Of a table.
    pub table_places: Places,
    pub fences: Fences,
    pub tally: Tally,
}

impl Run {
    pub fn new(seed: u64, tally: Tally) -> Run {
        let mut random = Random::new(seed);
        let rubbish = Rubbish::new(&mut random);
        let (places, table_places) = (Places::of::<Header>(), Places::of::<Table>());
        let (damages, fences) = (damage::all(), Fences::new());
        let between = (0..damages.len()).filter(|i| damages[*i].between()).collect();
        Run { random, rubbish, damages, between, places, table_places, fences, tally }
    }

    /// Turns until so many inputs more were compared.
    pub fn play(&mut self, inputs: u64) -> Result<(), String> {
        let end = self.tally.inputs() + inputs;
        let mut turn = 0;
        while self.tally.inputs() < end {
            self.turn(turn)?;
            turn += 1;
        }
        Ok(())
    }

    /// So many whole records of octets, by turns of either kind. A scene serves some of them.
    pub fn play_octets(&mut self, records: u64) -> Result<(), String> {
        let mut scene = Scene::new(self);
        for turn in 0..records {
            if turn % 64 == 63 {
                scene = Scene::new(self);
            }
            octets::compare_turn(self, &scene, turn)?;
        }
        Ok(())
    }

    /// So many whole tables of octets, likewise.
    pub fn play_tables(&mut self, tables: u64) -> Result<(), String> {
        let mut scene = Scene::new(self);
        for turn in 0..tables {
            if turn % 64 == 63 {
                scene = Scene::new(self);
            }
            table_octets::compare_turn(self, &scene, turn)?;
        }
        Ok(())
    }

    fn turn(&mut self, turn: u64) -> Result<(), String> {
        self.valid()?;
        self.damaged(turn_of(&self.damages, 2 * turn))?;
        self.damaged(turn_of(&self.damages, 2 * turn + 1))?;
        self.damaged(self.between[turn_of(&self.between, turn)])?;
        self.damaged_twice()?;
        self.broken()?;
        match turn % 8 {
            0 | 4 => tables::compare_list(self)?,
            2 => illformed::compare_spoiled(self, turn / 8)?,
            6 if turn % 48 == 6 => datagrams::compare_longest(self)?,
            6 if turn % 48 == 30 => self.cut()?,
            _ => {}
        }
        Ok(())
    }

    /// A valid record there and back, and what becomes of its datagram.
    fn valid(&mut self) -> Result<(), String> {
        let case = records::case(&mut self.random);
        let datagram = compare_both_ways(self, &case)?;
        for _ in 0..3 {
            let changed = datagrams::changed(&datagram, &mut self.random);
            compare_datagram(self, &changed)?;
        }
        let length = self.random.index(datagram.len());
        compare_datagram(self, &datagram[..length])?;
        let extra = datagrams::with_extra(&case, &mut self.random);
        compare_datagram(self, &extra)?;
        let noise = datagrams::noise(&mut self.random);
        compare_datagram(self, &noise)?;
        Ok(())
    }

    /// A record with one damage, which has its own refusal, and the datagram of it.
    fn damaged(&mut self, which: usize) -> Result<(), String> {
        let (case, refusal) = self.damages[which].case(&mut self.random);
        compare_record(self, &case)?;
        let plain = reference::check(&case.record, case.count);
        if plain != Err(refusal) {
            let name = &self.damages[which].name;
            return Err(format!(
                "{name}: both programs answer {plain:?}, not {refusal:?}\ninput: {case:?}"
            ));
        }
        let datagram = datagrams::of_record(&case, Extra::default(), &mut self.random);
        if compare_datagram(self, &datagram)?.is_none() {
            // The datagram has the record's one fault and no other.
            let days = calendar::of_record(&case, &reference::read(&datagram));
            self.tally.note_days(Kind::Read, days);
        }
        Ok(())
    }

    /// A record with one damage; each of these numbers is as likely as the others.
    fn refused_with(&mut self, numbers: &[u32]) -> Case {
        let number = *self.random.pick(numbers);
        let fitting: Vec<&Damage> = self.damages.iter().filter(|d| d.number == number).collect();
        self.random.pick(&fitting).case(&mut self.random).0
    }

    /// A damaged record.
    pub fn damaged_case(&mut self) -> Case {
        self.refused_with(&[2, 3, 4, 5, 6, 12])
    }

    /// A record in which a rule is broken or a size is wrong, often in a later block, and at times more than that.
    pub fn broken_case(&mut self) -> Case {
        if self.random.one_in(4) {
            return pairs::broken(&self.damages, &mut self.random);
        }
        self.refused_with(&[41, 42, 43, 44, 45, 46, 47, 48, 49, 52, 53, 54])
    }

    /// Two damages in one record: the order of the checks decides.
    fn damaged_twice(&mut self) -> Result<(), String> {
        let (i, j) = (self.random.index(self.damages.len()), self.random.index(self.damages.len()));
        let mut case = self.damages[i].case(&mut self.random).0;
        self.damages[j].add(&mut case, &mut self.random);
        compare_record(self, &case)?;
        let datagram = datagrams::of_record(&case, Extra::default(), &mut self.random);
        compare_datagram(self, &datagram)?;
        Ok(())
    }

    /// Several things wrong between fields, and in the datagram at times the header size as well.
    fn broken(&mut self) -> Result<(), String> {
        let case = pairs::broken(&self.damages, &mut self.random);
        compare_record(self, &case)?;
        let size = if self.random.one_in(3) { 1 + self.random.below(9) } else { 0 };
        let extra = Extra { size, ..Extra::default() };
        let datagram = datagrams::of_record(&case, extra, &mut self.random);
        compare_datagram(self, &datagram)?;
        Ok(())
    }

    fn cut(&mut self) -> Result<(), String> {
        let case = records::case(&mut self.random);
        let datagram = compare_both_ways(self, &case)?;
        datagrams::compare_cuts(self, &datagram)
    }
}
