//! A refusal: its number, the bit place and the message block that it tells.

use std::fmt;

/// Number, place and block as documents 01 and 02 have them. The place is 0 for every refusal but those of a reading;
/// the block, counted from 1, is the one that breaks a rule (41 to 49) or has a wrong body (53, 54), and 0 where no
/// block is to blame.
#[derive(Clone, Copy, Debug, PartialEq, Eq)]
pub struct Refusal {
    pub number: u32,
    pub place: usize,
    pub block: u32,
}

impl Refusal {
    /// What the number means, in words.
    pub fn meaning(&self) -> &'static str {
        match self.number {
            1 => "the bits end inside a field",
            2 => "the version is neither 1 nor 2",
            3 => "another code is not legal, or a record of version 1 has a standard version",
            4 => "a text is empty, or a character or a length of it is bad",
            5 => "a list of addressees, blocks or references is longer than it may be, or empty",
            6 => "an address has both forms or neither",
            7 => "the presence bit of G10 is 1",
            9 => "a fill bit is 1",
            11 => "the output has too little room",
            12 => "header and data together are longer than 65,507 octets",
            20 => "a posting asks for nothing",
            21 => "a posting has no recipient",
            22 => "the table holds the key already",
            23 => "the table's 32 rows are all held",
            24 => "a receipt without G8",
            25 => "a receipt without originator, or with G2 not of exactly one entry",
            26 => "no row has the key",
            27 => "the answerer is no recipient of that row",
            28 => "nothing is open there that the code answers",
            29 => "the record has no such block",
            30 => "the table is not well formed",
            number => rule_meaning(number),
        }
    }
}

/// What a broken rule or a wrong size means.
fn rule_meaning(number: u32) -> &'static str {
    match number {
        41 => "rule (a): requests (G7) without an originator (G1)",
        42 => "rule (b): a response (G8) beside a perishability time (G6) or requests (G7)",
        43 => "rule (c): a message identification (G4) in UMF 1",
        44 => "rule (d): a message identification (G4) in UMF 4",
        45 => "rule (e): a response (G8) in a compressed message",
        46 => "rule (f): of several blocks one, or the header, has no size",
        47 => "rule (g): a CANTCO reason beside another R/C than 6",
        48 => "rule (h): a CANTPRO reason beside another R/C than 2",
        49 => "rule (i): a request is set, and there is no originator's time (G5)",
        51 => "the header size is not the header's octets",
        52 => "the message sizes do not sum to the data octets",
        53 => "a block has no data octets and needs some, or a response (G8) in UMF 4",
        54 => "a block has data octets and may have none",
        _ => "unknown",
    }
}

/// The rule that a block breaks, and what is wrong with the block: words to stand before its number and behind it.
fn of_block(number: u32) -> Option<(&'static str, &'static str)> {
    Some(match number {
        41 => ("rule (a): ", "has requests (G7), and there is no originator (G1)"),
        42 => {
            ("rule (b): ", "has a response (G8) beside a perishability time (G6) or requests (G7)")
        }
        43 => ("rule (c): ", "has a message identification (G4) in UMF 1"),
        44 => ("rule (d): ", "has a message identification (G4) in UMF 4"),
        45 => ("rule (e): ", "has a response (G8) in a compressed message"),
        46 => ("rule (f): ", "has no message size"),
        47 => ("rule (g): ", "has a CANTCO reason beside another R/C than 6"),
        48 => ("rule (h): ", "has a CANTPRO reason beside another R/C than 2"),
        49 => ("rule (i): ", "has a request that is set, and no originator's time (G5)"),
        53 => ("", "has no data octets and needs some, or a response (G8) in UMF 4"),
        54 => ("", "has data octets and may have none"),
        _ => return None,
    })
}

/// The number and the place, then what is wrong, and where that is a block's fault the block by its number.
impl fmt::Display for Refusal {
    fn fmt(&self, f: &mut fmt::Formatter<'_>) -> fmt::Result {
        let Refusal { number, place, block } = *self;
        write!(f, "refusal {number} at place {place}: ")?;
        match (number, block, of_block(number)) {
            (46, 0, _) => f.write_str("rule (f): the header has no size"),
            (_, 1.., Some((rule, words))) => write!(f, "{rule}block {block} {words}"),
            _ => f.write_str(self.meaning()),
        }
    }
}

impl std::error::Error for Refusal {}
