//! The board of messages that still wait for answers.

use std::cmp::Ordering;

use crate::legal::{MAX_ADDRESSEES, MAX_ROWS};
use crate::refusal::Refusal;
use crate::types::{Address, Block, Dtg, Header, Requests, Stamp};
use crate::writer::{check, check_address, check_stamp};

/// What names a message: who made it, and its stamp.
#[derive(Clone, Debug, PartialEq, Eq)]
pub struct Key {
    pub address: Address,
    pub stamp: Stamp,
}

/// One station that owes answers. A cell is 0 while it holds no code.
#[derive(Clone, Debug, PartialEq, Eq)]
pub struct Recipient {
    pub address: Address,
    pub machine: u32,
    pub acknowledge: u32,
    pub reply: u32,
}

#[derive(Clone, Debug, PartialEq, Eq)]
pub struct Row {
    pub key: Key,
    pub asked: Requests,
    pub recipients: Vec<Recipient>,
}

#[derive(Clone, Debug, PartialEq, Eq)]
pub struct Board {
    pub rows: Vec<Row>,
}

impl Board {
    pub fn new() -> Board {
        Board { rows: Vec::new() }
    }
}

impl Default for Board {
    fn default() -> Self {
        Board::new()
    }
}

// ---------------------------------------------------------------------------
// Order

/// Numbers before names; numbers by size; names character by character, and
/// where one name begins the other, the shorter first. Meant for legal
/// addresses; for others it gives some answer that nobody uses.
pub fn address_order(a: &Address, b: &Address) -> Ordering {
    match (a.urn, b.urn) {
        (Some(x), Some(y)) => return x.cmp(&y),
        (Some(_), None) => return Ordering::Less,
        (None, Some(_)) => return Ordering::Greater,
        (None, None) => {}
    }
    match (&a.name, &b.name) {
        (Some(x), Some(y)) => name_order(x, y),
        (None, None) => Ordering::Equal,
        (None, Some(_)) => Ordering::Less,
        (Some(_), None) => Ordering::Greater,
    }
}

fn name_order(x: &[u8], y: &[u8]) -> Ordering {
    let mut i = 0;
    while i < x.len() && i < y.len() {
        if x[i] < y[i] {
            return Ordering::Less;
        }
        if x[i] > y[i] {
            return Ordering::Greater;
        }
        i += 1;
    }
    x.len().cmp(&y.len())
}

fn dtg_order(x: &Dtg, y: &Dtg) -> Ordering {
    let pairs = [
        (x.year, y.year),
        (x.month, y.month),
        (x.day, y.day),
        (x.hour, y.hour),
        (x.minute, y.minute),
        (x.second, y.second),
    ];
    for (a, b) in pairs {
        if a != b {
            return a.cmp(&b);
        }
    }
    Ordering::Equal
}

/// By address, then by time, then without extension ahead of any extension.
pub fn key_order(x: &Key, y: &Key) -> Ordering {
    let by_address = address_order(&x.address, &y.address);
    if by_address != Ordering::Equal {
        return by_address;
    }
    let by_time = dtg_order(&x.stamp.dtg, &y.stamp.dtg);
    if by_time != Ordering::Equal {
        return by_time;
    }
    match (x.stamp.extension, y.stamp.extension) {
        (None, None) => Ordering::Equal,
        (None, Some(_)) => Ordering::Less,
        (Some(_), None) => Ordering::Greater,
        (Some(a), Some(b)) => a.cmp(&b),
    }
}

// ---------------------------------------------------------------------------
// Well-formedness

/// Refusals 3, 4 and 6 of a key, the address before the stamp.
fn check_key(key: &Key) -> Result<(), Refusal> {
    check_address(&key.address)?;
    check_stamp(&key.stamp)
}

/// Whether a board is one that the calls below could keep. They refuse any
/// other board with 30 before they look at anything else.
pub fn well_formed(board: &Board) -> bool {
    if board.rows.len() > MAX_ROWS {
        return false;
    }
    for row in &board.rows {
        if !row_well_formed(row) {
            return false;
        }
    }
    // Strictly rising, so no key stands twice.
    for i in 1..board.rows.len() {
        if key_order(&board.rows[i - 1].key, &board.rows[i].key) != Ordering::Less {
            return false;
        }
    }
    true
}

fn row_well_formed(row: &Row) -> bool {
    if check_key(&row.key).is_err() {
        return false;
    }
    if !row.asked.machine && !row.asked.acknowledge && !row.asked.reply {
        return false;
    }
    if row.recipients.is_empty() || row.recipients.len() > MAX_ADDRESSEES {
        return false;
    }
    for recipient in &row.recipients {
        if check_address(&recipient.address).is_err() {
            return false;
        }
        if !cells_well_formed(&row.asked, recipient) {
            return false;
        }
    }
    for i in 1..row.recipients.len() {
        let before = &row.recipients[i - 1].address;
        let after = &row.recipients[i].address;
        if address_order(before, after) != Ordering::Less {
            return false;
        }
    }
    true
}

fn cells_well_formed(asked: &Requests, r: &Recipient) -> bool {
    // A cell holds nothing, or a code that answers its request.
    if r.machine != 0 && !(asked.machine && answers_machine(r.machine)) {
        return false;
    }
    if r.acknowledge != 0 && !(asked.acknowledge && answers_acknowledge(r.acknowledge)) {
        return false;
    }
    if r.reply != 0 && !(asked.reply && answers_reply(r.reply)) {
        return false;
    }
    // Code 2 closes all that is open, so nothing can be open beside it.
    let refused = r.machine == 2 || r.acknowledge == 2 || r.reply == 2;
    let open = (asked.machine && r.machine == 0)
        || (asked.acknowledge && r.acknowledge == 0)
        || (asked.reply && r.reply == 0);
    !(refused && open)
}

fn answers_machine(code: u32) -> bool {
    code == 1 || code == 2
}

fn answers_acknowledge(code: u32) -> bool {
    code == 3 || code == 2
}

fn answers_reply(code: u32) -> bool {
    code == 4 || code == 5 || code == 6 || code == 2
}

// ---------------------------------------------------------------------------
// Calls. Each is done or gives a refusal; a refusal changes nothing.

/// Refusals that posting and receipt share, up to and with 29. Blocks are
/// counted from 1, so there is no block 0. A fault of the record is told with
/// the block that has it, which need not be the one that is asked for.
fn find_block<'a>(
    board: &Board,
    h: &'a Header,
    number: u32,
    count: u64,
) -> Result<&'a Block, Refusal> {
    if !well_formed(board) {
        return Err(Refusal::new(30));
    }
    check(h, count)?;
    if number == 0 || number as usize > h.blocks.len() {
        return Err(Refusal::new(29));
    }
    Ok(&h.blocks[number as usize - 1])
}

fn find_row(board: &Board, key: &Key) -> Option<usize> {
    for i in 0..board.rows.len() {
        if board.rows[i].key == *key {
            return Some(i);
        }
    }
    None
}

fn find_recipient(row: &Row, address: &Address) -> Option<usize> {
    for i in 0..row.recipients.len() {
        if row.recipients[i].address == *address {
            return Some(i);
        }
    }
    None
}

/// Puts an original message on the board.
pub fn post(board: &mut Board, h: &Header, block: u32, count: u64) -> Result<(), Refusal> {
    let b = find_block(board, h, block, count)?;

    let asked = match &b.requests {
        Some(q) => q.clone(),
        None => return Err(Refusal::new(20)),
    };
    if !asked.machine && !asked.acknowledge && !asked.reply {
        return Err(Refusal::new(20));
    }
    let list = match &h.recipients {
        Some(list) => list,
        None => return Err(Refusal::new(21)),
    };
    let key = match (&h.originator, &b.stamp) {
        (Some(address), Some(stamp)) => Key {
            address: address.clone(),
            stamp: stamp.clone(),
        },
        // Something is asked, so by rules (a) and (i) both are there.
        _ => unreachable!("a checked record that asks has an originator and a stamp"),
    };
    if find_row(board, &key).is_some() {
        return Err(Refusal::new(22));
    }
    if board.rows.len() >= MAX_ROWS {
        return Err(Refusal::new(23));
    }

    let mut recipients: Vec<Recipient> = Vec::new();
    for address in list {
        add_recipient(&mut recipients, address);
    }
    add_row(board, Row { key, asked, recipients });
    Ok(())
}

/// Puts a row ahead of the first one with a greater key.
fn add_row(board: &mut Board, row: Row) {
    let mut at = 0;
    while at < board.rows.len() && key_order(&board.rows[at].key, &row.key) == Ordering::Less {
        at += 1;
    }
    board.rows.insert(at, row);
}

/// Puts an address at its place in the list, unless it stands there already.
fn add_recipient(recipients: &mut Vec<Recipient>, address: &Address) {
    let mut at = 0;
    while at < recipients.len() {
        match address_order(&recipients[at].address, address) {
            Ordering::Less => at += 1,
            Ordering::Equal => return,
            Ordering::Greater => break,
        }
    }
    let recipient = Recipient {
        address: address.clone(),
        machine: 0,
        acknowledge: 0,
        reply: 0,
    };
    recipients.insert(at, recipient);
}

/// Takes an answer to a message on the board.
pub fn receipt(board: &mut Board, h: &Header, block: u32, count: u64) -> Result<(), Refusal> {
    let b = find_block(board, h, block, count)?;

    let response = match &b.response {
        Some(response) => response,
        None => return Err(Refusal::new(24)),
    };
    let answerer = match &h.originator {
        Some(address) => address,
        None => return Err(Refusal::new(25)),
    };
    let asker = match &h.recipients {
        Some(list) if list.len() == 1 => &list[0],
        _ => return Err(Refusal::new(25)),
    };
    let key = Key {
        address: asker.clone(),
        stamp: response.stamp.clone(),
    };
    let at = match find_row(board, &key) {
        Some(at) => at,
        None => return Err(Refusal::new(26)),
    };

    let row = &mut board.rows[at];
    let who = match find_recipient(row, answerer) {
        Some(who) => who,
        None => return Err(Refusal::new(27)),
    };

    if settle(&row.asked, &mut row.recipients[who], response.code) {
        Ok(())
    } else {
        Err(Refusal::new(28))
    }
}

/// Writes a code to all that it answers and that is still open, and tells
/// whether there was anything. Only cells without a code are written: the first
/// answer stands.
fn settle(asked: &Requests, r: &mut Recipient, code: u32) -> bool {
    let mut settled = false;
    if asked.machine && r.machine == 0 && answers_machine(code) {
        r.machine = code;
        settled = true;
    }
    if asked.acknowledge && r.acknowledge == 0 && answers_acknowledge(code) {
        r.acknowledge = code;
        settled = true;
    }
    if asked.reply && r.reply == 0 && answers_reply(code) {
        r.reply = code;
        settled = true;
    }
    settled
}

/// Takes a message off the board.
pub fn release(board: &mut Board, key: &Key) -> Result<(), Refusal> {
    if !well_formed(board) {
        return Err(Refusal::new(30));
    }
    check_key(key)?;
    match find_row(board, key) {
        Some(at) => {
            board.rows.remove(at);
            Ok(())
        }
        None => Err(Refusal::new(26)),
    }
}
