//! Many records from a small number generator with a fixed start, so that each
//! run is the same. What is looked for: both directions agree.

use super::*;

struct Dice(u64);

impl Dice {
    fn next(&mut self) -> u32 {
        self.0 = self.0.wrapping_mul(6364136223846793005).wrapping_add(1442695040888963407);
        (self.0 >> 33) as u32
    }

    /// From 0 up to but without `limit`.
    fn below(&mut self, limit: u32) -> u32 {
        self.next() % limit
    }

    fn coin(&mut self) -> bool {
        self.below(2) == 1
    }

    fn text(&mut self, maximum: u32) -> Vec<u8> {
        let length = match self.below(4) {
            0 => maximum,
            1 => maximum - 1,
            _ => 1 + self.below(maximum),
        };
        (0..length).map(|_| self.below(127) as u8).collect()
    }

    fn maybe(&mut self, limit: u32) -> Option<u32> {
        if self.coin() {
            Some(self.below(limit))
        } else {
            None
        }
    }

    fn maybe_text(&mut self, maximum: u32) -> Option<Vec<u8>> {
        if self.coin() {
            Some(self.text(maximum))
        } else {
            None
        }
    }

    fn address(&mut self) -> Address {
        if self.coin() {
            urn(self.below(1 << 24))
        } else {
            Address { urn: None, name: Some(self.text(64)) }
        }
    }

    /// Often the last day of its month, where a mistake would show.
    fn dtg(&mut self) -> Dtg {
        let year = self.below(100);
        let month = 1 + self.below(12);
        let last = calendar::last_day(year, month);
        let day = if self.coin() { last } else { 1 + self.below(last) };
        Dtg {
            year,
            month,
            day,
            hour: self.below(24),
            minute: self.below(60),
            second: self.below(60),
        }
    }

    fn stamp(&mut self) -> Stamp {
        Stamp { dtg: self.dtg(), extension: self.maybe(4096) }
    }

    fn addresses(&mut self, count: u32) -> Option<Vec<Address>> {
        if count > 0 && self.coin() {
            Some((0..count).map(|_| self.address()).collect())
        } else {
            None
        }
    }

    /// A valid record of this version and the octets of its user data.
    fn record(&mut self, version: u32) -> (Header, u64) {
        let mut h = plain_header();
        h.version = version;
        if self.coin() {
            h.originator = Some(self.address());
        }
        let g2 = self.below(17);
        h.recipients = self.addresses(g2);
        let taken = h.recipients.as_ref().map_or(0, |l| l.len() as u32);
        let g3 = self.below(17 - taken);
        h.information = self.addresses(g3);
        let blocks = match self.below(3) {
            0 => 1,
            1 => 1 + self.below(3),
            _ => 1 + self.below(16),
        };
        h.sized = blocks > 1 || self.coin();
        h.compression = self.maybe(2);
        let mut count = 0;
        h.blocks = Vec::new();
        for _ in 0..blocks {
            let mut b = self.block(&h);
            let size = if b.response.is_some() { 0 } else { 1 + self.below(40) };
            count += u64::from(size);
            if blocks > 1 || self.coin() {
                b.message_size = Some(size);
            }
            h.blocks.push(b);
        }
        (h, count)
    }

    /// A block that can stand in this header; its size is not yet told.
    fn block(&mut self, h: &Header) -> Block {
        let mut b = plain_block();
        b.umf = self.below(9);
        if h.version == 2 {
            b.standard_version = self.maybe(16);
        }
        if self.coin() && b.umf != 1 && b.umf != 4 {
            b.identity = Some(Identity {
                fad: self.below(16),
                number: self.below(128),
                subtype: self.maybe(128),
            });
        }
        b.file_name = self.maybe_text(64);
        b.operation = self.below(4);
        b.retransmit = self.below(2);
        b.precedence = self.below(8);
        b.classification = self.below(4);
        b.marking = self.maybe_text(32);
        if self.coin() {
            b.stamp = Some(self.stamp());
        }
        if self.coin() && h.compression.is_none() && b.umf != 4 {
            b.response = Some(self.response());
        } else {
            self.original(&mut b, h.originator.is_some());
        }
        if self.coin() {
            let n = 1 + self.below(4);
            let mut list = Vec::new();
            for _ in 0..n {
                list.push(Reference { address: self.address(), stamp: self.stamp() });
            }
            b.references = Some(list);
        }
        b
    }

    fn response(&mut self) -> Response {
        let code = 1 + self.below(6);
        Response {
            stamp: self.stamp(),
            code,
            cantco: if code == 6 { self.maybe(8) } else { None },
            cantpro: if code == 2 { self.maybe(64) } else { None },
            amplification: self.maybe_text(50),
        }
    }

    /// The groups that only a block without an answer can have.
    fn original(&mut self, b: &mut Block, has_originator: bool) {
        if self.coin() {
            b.perishable = Some(self.dtg());
        }
        if self.coin() && has_originator {
            let ask = b.stamp.is_some();
            b.requests = Some(requests(
                ask && self.coin(),
                ask && self.coin(),
                ask && self.coin(),
            ));
        }
    }
}

/// One record of each version in turn.
fn version_of(turn: u32) -> u32 {
    1 + turn % 2
}

#[test]
fn written_records_are_read_back() {
    let mut dice = Dice(1);
    for turn in 0..800 {
        let (h, count) = dice.record(version_of(turn));
        let octets = check(&h, count).expect("the generator makes valid records");
        let mut d: Vec<u8> = (0..octets + count as usize).map(|_| dice.next() as u8).collect();
        let data = d[octets..].to_vec();
        assert_eq!(write(&h, count, &mut d), Ok(octets));
        assert_eq!(&d[octets..], &data[..]);
        assert_eq!(read(&d), Ok((h.clone(), octets)));
        assert_eq!(user_data(&d), &data[..]);
        // One octet of data more or less is only right where no size is told.
        assert!(check(&h, count + 1).is_ok() == read(&with_data(&d, &[0])).is_ok());
    }
}

#[test]
fn a_cut_header_runs_out() {
    let mut dice = Dice(2);
    for turn in 0..40 {
        let (h, count) = dice.record(version_of(turn));
        let octets = check(&h, count).unwrap();
        let mut d = vec![0; octets];
        write(&h, count, &mut d).unwrap();
        for cut in (0..octets).step_by(7) {
            assert_eq!(read(&d[..cut]).unwrap_err().number, 1);
        }
    }
}

#[test]
fn what_is_read_is_written_back() {
    let mut dice = Dice(3);
    let mut accepted = [0u32; 3];
    let mut seen = [0u32; 55];
    for turn in 0..3000 {
        let (h, count) = dice.record(version_of(turn));
        let octets = check(&h, count).unwrap();
        let mut d = vec![0xA5; octets + count as usize];
        write(&h, count, &mut d).unwrap();
        // Turn a few bits round, then see whether it can still be read.
        for _ in 0..1 + dice.below(2) {
            let k = dice.below(octets as u32 * 8) as usize;
            d[k / 8] ^= 1 << (k % 8);
        }
        match read(&d) {
            Ok((changed, length)) => {
                accepted[changed.version as usize] += 1;
                let rest = (d.len() - length) as u64;
                let mut out = vec![0; length];
                assert_eq!(write(&changed, rest, &mut out), Ok(length));
                assert_eq!(out, &d[..length]);
            }
            Err(refusal) => {
                seen[refusal.number as usize] += 1;
                assert_points_right(refusal, d.len() * 8);
            }
        }
    }
    assert!(accepted[1] > 100 && accepted[2] > 100, "{accepted:?}");
    for number in [1, 2, 3, 4, 5, 6, 7, 9, 46, 51, 52] {
        assert!(seen[number] > 0, "refusal {number} never came up: {seen:?}");
    }
}

/// Each number points at a bit, at a block, or at nothing, and the reader gives
/// no others.
fn assert_points_right(refusal: Refusal, end: usize) {
    match refusal.number {
        1..=7 | 9 => {
            assert!(refusal.place <= end);
            assert_eq!(refusal.block, 0);
        }
        46 => assert!(refusal.place == 0 && refusal.block <= 16),
        41..=49 | 53 | 54 => {
            assert_eq!(refusal.place, 0);
            assert!(refusal.block >= 1 && refusal.block <= 16);
        }
        51 | 52 => assert_eq!(refusal, only(refusal.number)),
        number => panic!("refusal {number}"),
    }
}

/// All times of a record, from the left.
fn times(h: &mut Header) -> Vec<&mut Dtg> {
    let mut all = Vec::new();
    for b in &mut h.blocks {
        if let Some(s) = &mut b.stamp {
            all.push(&mut s.dtg);
        }
        if let Some(d) = &mut b.perishable {
            all.push(d);
        }
        if let Some(r) = &mut b.response {
            all.push(&mut r.stamp.dtg);
        }
        for reference in b.references.iter_mut().flatten() {
            all.push(&mut reference.stamp.dtg);
        }
    }
    all
}

/// Where the day of one of them stands: at the first bit that differs when the
/// day has all its bits zero and when it has them all set.
fn place_of_day(h: &Header, which: usize) -> usize {
    let octets_with = |day: u32| {
        let mut h = h.clone();
        times(&mut h)[which].day = day;
        by_hand::header_octets(&h)
    };
    let (zeros, ones) = (octets_with(0), octets_with(31));
    let differs = |k: &usize| bit_at(&zeros, *k) != bit_at(&ones, *k);
    (0..zeros.len() * 8).find(differs).unwrap()
}

#[test]
fn any_day_anywhere_in_a_record() {
    let mut dice = Dice(8);
    let mut seen = [0u32; 2];
    for turn in 0..3000 {
        let (mut h, count) = dice.record(version_of(turn));
        let many = times(&mut h).len() as u32;
        if many == 0 {
            continue;
        }
        let which = dice.below(many) as usize;
        let d = &mut times(&mut h)[which];
        // Few days, so that the ends of the months come up often.
        d.day = (27 + dice.below(6)) % 32;
        let legal = d.day >= 1 && d.day <= calendar::last_day(d.year, d.month);
        seen[legal as usize] += 1;

        let octets = by_hand::header_octets(&h);
        let datagram = with_data(&octets, &vec![0; count as usize]);
        if legal {
            assert_eq!(check(&h, count), Ok(octets.len()));
            assert_eq!(read(&datagram), Ok((h, octets.len())));
        } else {
            assert_eq!(check(&h, count), Err(only(3)));
            assert_eq!(read(&datagram), Err(at(3, place_of_day(&h, which))));
        }
    }
    assert!(seen[0] > 500 && seen[1] > 500, "{seen:?}");
}

#[test]
fn a_record_in_the_other_version() {
    let mut dice = Dice(5);
    let mut seen = [0u32; 2];
    for _ in 0..400 {
        // Version 2 takes all that version 1 does, with one bit more a block.
        let (mut h, count) = dice.record(1);
        let short = check(&h, count).unwrap();
        h.version = 2;
        let long = check(&h, count).unwrap();
        assert!(long >= short && long <= short + (h.blocks.len() + 7) / 8);
        // Version 1 takes those without a standard version.
        let (mut h, count) = dice.record(2);
        let extra = h.blocks.iter().any(|b| b.standard_version.is_some());
        h.version = 1;
        match check(&h, count) {
            Ok(_) => assert!(!extra),
            Err(refusal) => assert!(extra && refusal == only(3)),
        }
        seen[extra as usize] += 1;
        // And all of them once that is gone.
        for b in &mut h.blocks {
            b.standard_version = None;
        }
        assert!(check(&h, count).is_ok());
    }
    assert!(seen[0] > 20 && seen[1] > 20, "{seen:?}");
}

#[test]
fn octets_under_the_other_version() {
    let mut dice = Dice(6);
    let mut accepted = [0u32; 3];
    for turn in 0..4000 {
        let version = version_of(turn);
        let (h, count) = dice.record(version);
        let octets = check(&h, count).unwrap();
        let mut d = vec![0; octets + count as usize];
        write(&h, count, &mut d).unwrap();
        // The two numbers differ in their low two bits.
        d[0] ^= 3;
        // What can be read is of the other version and is written back; the
        // number itself is never what it is refused for.
        match read(&d) {
            Ok((changed, length)) => {
                assert_eq!(changed.version, 3 - version);
                accepted[changed.version as usize] += 1;
                let mut out = vec![0; length];
                assert_eq!(write(&changed, (d.len() - length) as u64, &mut out), Ok(length));
                assert_eq!(out, &d[..length]);
            }
            Err(refusal) => assert_ne!(refusal.number, 2),
        }
    }
    assert!(accepted[1] > 0 && accepted[2] > 0, "{accepted:?}");
}

#[test]
fn calls_keep_the_board_in_order_and_refusals_leave_it_alone() {
    let mut dice = Dice(4);
    let mut board = Board::new();
    let mut seen = [0u32; 31];
    // Few names and times, so that calls meet.
    let some_address = |dice: &mut Dice| match dice.below(5) {
        0 => name(b"A"),
        1 => name(b"AB"),
        n => urn(n),
    };
    let some_stamp = |dice: &mut Dice| {
        let mut s = stamp();
        s.dtg.second = 50 + dice.below(4);
        s.extension = dice.maybe(2);
        s
    };
    for _ in 0..6000 {
        let before = board.clone();
        let from = some_address(&mut dice);
        let s = some_stamp(&mut dice);
        let got = match dice.below(if board.rows.len() < 30 { 6 } else { 7 }) {
            0..=3 => {
                let n = dice.below(4);
                let to: Vec<Address> = (0..n).map(|_| some_address(&mut dice)).collect();
                let asks = requests(dice.coin(), dice.coin(), dice.coin());
                let mut h = message(from, to, s, asks);
                h.version = 1 + dice.below(2);
                if n == 0 {
                    h.recipients = None;
                }
                post(&mut board, &h, dice.below(20).min(1), 1)
            }
            4 | 5 => {
                let to = some_address(&mut dice);
                let mut h = answer(from, to, s, 1 + dice.below(6));
                h.version = 1 + dice.below(2);
                if dice.below(10) == 0 {
                    h.originator = None;
                }
                receipt(&mut board, &h, 1, 0)
            }
            _ => {
                let k = Key { address: from, stamp: s };
                release(&mut board, &k)
            }
        };
        assert!(well_formed(&board));
        match got {
            Ok(()) => {
                seen[0] += 1;
                assert_ne!(board, before);
            }
            Err(refusal) => {
                seen[refusal.number as usize] += 1;
                assert_eq!(refusal, only(refusal.number));
                assert_eq!(board, before);
            }
        }
    }
    for number in [0, 20, 21, 22, 23, 25, 26, 27, 28, 29] {
        assert!(seen[number] > 0, "refusal {number} never came up: {seen:?}");
    }
}

/// All faults between fields as number and block, gathered block by block. The
/// numbers rise in the order in which the faults are tried, and one number is
/// tried from block 0 up: so the least pair is the one that must be told.
fn faults(h: &Header, count: u64) -> Vec<(u32, u32)> {
    let mut all = Vec::new();
    let several = h.blocks.len() > 1;
    let mut sum = 0;
    for (i, b) in h.blocks.iter().enumerate() {
        let block = i as u32 + 1;
        let size = b.message_size.map_or(count, u64::from);
        sum += size;
        if several && b.message_size.is_none() {
            all.push((46, block));
        }
        if b.identity.is_some() && (b.umf == 1 || b.umf == 4) {
            all.push((if b.umf == 1 { 43 } else { 44 }, block));
        }
        if let Some(q) = &b.requests {
            if h.originator.is_none() {
                all.push((41, block));
            }
            if *q != requests(false, false, false) && b.stamp.is_none() {
                all.push((49, block));
            }
        }
        match &b.response {
            None if size == 0 => all.push((53, block)),
            None => {}
            Some(r) => answer_faults(h, b, r, size, block, &mut all),
        }
    }
    if several && !h.sized {
        all.push((46, 0));
    }
    if sum != count {
        all.push((52, 0));
    }
    all
}

/// Those of a block with an answer.
fn answer_faults(
    h: &Header,
    b: &Block,
    r: &Response,
    size: u64,
    block: u32,
    all: &mut Vec<(u32, u32)>,
) {
    if b.perishable.is_some() || b.requests.is_some() {
        all.push((42, block));
    }
    if h.compression.is_some() {
        all.push((45, block));
    }
    if r.cantco.is_some() && r.code != 6 {
        all.push((47, block));
    }
    if r.cantpro.is_some() && r.code != 2 {
        all.push((48, block));
    }
    if b.umf == 4 {
        all.push((53, block));
    } else if size != 0 {
        all.push((54, block));
    }
}

impl Dice {
    /// Changes one thing that the rules or sizes look at; each field by itself
    /// stays in order.
    fn spoil(&mut self, h: &mut Header) {
        let which = self.below(h.blocks.len() as u32) as usize;
        match self.below(14) {
            0 => h.originator = None,
            1 => h.compression = Some(1),
            2 => h.sized = false,
            n => self.spoil_block(&mut h.blocks[which], n),
        }
    }

    fn spoil_block(&mut self, b: &mut Block, what: u32) {
        match what {
            3 => b.umf = 1,
            4 => b.umf = 4,
            5 => b.identity = Some(Identity { fad: 1, number: 1, subtype: None }),
            6 => b.message_size = None,
            7 => b.message_size = Some(self.below(3)),
            8 => b.stamp = None,
            9 => b.perishable = Some(dtg()),
            10 => b.requests = Some(requests(self.coin(), self.coin(), self.coin())),
            11 => b.response = Some(self.response()),
            // A reason, in an answer that is made for it if there is none.
            12 => b.response.get_or_insert_with(|| self.response()).cantco = Some(7),
            _ => b.response.get_or_insert_with(|| self.response()).cantpro = Some(9),
        }
    }

    /// A record of this version that may have faults of that kind, and the
    /// octets of its user data.
    fn spoilt_record(&mut self, version: u32) -> (Header, u64) {
        let (mut h, count) = self.record(version);
        for _ in 0..self.below(4) {
            self.spoil(&mut h);
        }
        // Often the data follows the sizes as they are told now.
        if self.below(4) != 0 && h.blocks.iter().all(|b| b.message_size.is_some()) {
            let sum = h.blocks.iter().map(|b| u64::from(b.message_size.unwrap())).sum();
            return (h, sum);
        }
        (h, count)
    }
}

/// What must be told of these faults.
fn first_of(all: &[(u32, u32)]) -> Result<(), Refusal> {
    match all.iter().min() {
        Some((number, block)) => Err(in_block(*number, *block)),
        None => Ok(()),
    }
}

#[test]
fn the_first_fault_is_told_with_its_block() {
    let mut dice = Dice(7);
    let mut seen = [0u32; 55];
    let mut later = [0u32; 55];
    for turn in 0..6000 {
        let (h, count) = dice.spoilt_record(version_of(turn));
        let mut all = faults(&h, count);
        assert_eq!(check(&h, count).map(|_| ()), first_of(&all));
        let mut board = Board::new();
        if !all.is_empty() {
            assert_eq!(post(&mut board, &h, 1, count), first_of(&all));
            assert_eq!(receipt(&mut board, &h, 1, count), first_of(&all));
            assert_eq!(board, Board::new());
        }

        // And while reading, sometimes with a wrong header size.
        let mut header = by_hand::header_octets(&h);
        if h.sized && dice.below(4) == 0 {
            header = by_hand::header_telling(&h, header.len() as u32 + 1);
            all.push((51, 0));
        }
        let got = read(&with_data(&header, &vec![0x5A; count as usize]));
        if all.is_empty() {
            assert_eq!(got, Ok((h, header.len())));
            seen[0] += 1;
        } else {
            let refusal = got.unwrap_err();
            assert_eq!(Err(refusal), first_of(&all));
            seen[refusal.number as usize] += 1;
            later[refusal.number as usize] += (refusal.block > 1) as u32;
        }
    }
    for number in [0, 41, 42, 43, 44, 45, 46, 47, 48, 49, 51, 52, 53, 54] {
        assert!(seen[number] > 20, "refusal {number} is rare: {seen:?}");
        let has_block = number != 0 && number != 51 && number != 52;
        assert!(!has_block || later[number] > 0, "only in block 1: {number}");
    }
}
