//! Whole records put into bits without the writer, which would refuse those
//! that break a rule or have a wrong size.

use super::*;

impl Hand {
    /// `[x]` for a number.
    fn maybe(&mut self, value: Option<u32>, width: usize) -> &mut Hand {
        match value {
            Some(value) => self.n(1, 1).n(value, width),
            None => self.n(0, 1),
        }
    }

    /// `[x]` for a text.
    fn maybe_text(&mut self, text: &Option<Vec<u8>>, maximum: usize) -> &mut Hand {
        let Some(text) = text else {
            return self.n(0, 1);
        };
        self.n(1, 1).chars(text);
        if text.len() < maximum {
            self.n(127, 7);
        }
        self
    }

    fn address(&mut self, a: &Address) -> &mut Hand {
        self.maybe(a.urn, 24).maybe_text(&a.name, 64)
    }

    fn addressees(&mut self, list: &Option<Vec<Address>>) -> &mut Hand {
        self.n(list.is_some() as u32, 1);
        let list = list.clone().unwrap_or_default();
        for (i, a) in list.iter().enumerate() {
            self.n((i + 1 < list.len()) as u32, 1).address(a);
        }
        self
    }

    fn time(&mut self, d: &Dtg) -> &mut Hand {
        self.n(d.year, 7).n(d.month, 4).n(d.day, 5);
        self.n(d.hour, 5).n(d.minute, 6).n(d.second, 6)
    }

    fn stamp(&mut self, s: &Stamp) -> &mut Hand {
        self.time(&s.dtg).maybe(s.extension, 12)
    }

    /// A block behind its recurrence bit, up to the marking.
    fn block_front(&mut self, b: &Block, version: u32) -> &mut Hand {
        self.n(b.umf, 4);
        if version == 2 {
            self.maybe(b.standard_version, 4);
        }
        self.n(b.identity.is_some() as u32, 1);
        if let Some(i) = &b.identity {
            self.n(i.fad, 4).n(i.number, 7).maybe(i.subtype, 7);
        }
        self.maybe_text(&b.file_name, 64).maybe(b.message_size, 20);
        self.n(b.operation, 2).n(b.retransmit, 1).n(b.precedence, 3).n(b.classification, 2);
        self.maybe_text(&b.marking, 32)
    }

    /// The rest of it: G5 to G10.
    fn block_groups(&mut self, b: &Block) -> &mut Hand {
        self.n(b.stamp.is_some() as u32, 1);
        if let Some(s) = &b.stamp {
            self.stamp(s);
        }
        self.n(b.perishable.is_some() as u32, 1);
        if let Some(d) = &b.perishable {
            self.time(d);
        }
        self.n(b.requests.is_some() as u32, 1);
        if let Some(q) = &b.requests {
            self.n(q.machine as u32, 1).n(q.acknowledge as u32, 1).n(q.reply as u32, 1);
        }
        self.n(b.response.is_some() as u32, 1);
        if let Some(r) = &b.response {
            self.stamp(&r.stamp).n(r.code, 3).maybe(r.cantco, 3).maybe(r.cantpro, 6);
            self.maybe_text(&r.amplification, 50);
        }
        self.n(b.references.is_some() as u32, 1);
        let list = b.references.clone().unwrap_or_default();
        for (i, reference) in list.iter().enumerate() {
            self.n((i + 1 < list.len()) as u32, 1);
            self.address(&reference.address).stamp(&reference.stamp);
        }
        self.n(0, 1)
    }

    /// A whole header; `told` stands as its size where it tells one.
    fn header(&mut self, h: &Header, told: u32) -> &mut Hand {
        self.n(h.version, 4).maybe(h.compression, 2);
        self.n(h.originator.is_some() as u32, 1);
        if let Some(a) = &h.originator {
            self.address(a);
        }
        self.addressees(&h.recipients).addressees(&h.information);
        self.maybe(if h.sized { Some(told) } else { None }, 16);
        for (i, b) in h.blocks.iter().enumerate() {
            self.n((i + 1 < h.blocks.len()) as u32, 1);
            self.block_front(b, h.version).block_groups(b);
        }
        self
    }
}

/// The octets of a record that tells this header size.
pub fn header_telling(h: &Header, told: u32) -> Vec<u8> {
    let mut m = Hand::new();
    m.header(h, told);
    m.octets()
}

/// The same with the true one.
pub fn header_octets(h: &Header) -> Vec<u8> {
    let octets = header_telling(h, 0).len();
    header_telling(h, octets as u32)
}

#[test]
fn the_worked_headers_by_hand() {
    let b = message(urn(207), vec![urn(3)], stamp(), requests(true, false, false));
    let c = answer(urn(3), urn(207), stamp(), 1);
    assert_eq!(header_octets(&plain_header()), A);
    assert_eq!(header_octets(&b), B);
    assert_eq!(header_octets(&c), C);
    assert_eq!(header_octets(&old(&plain_header())), A1);
    assert_eq!(header_octets(&old(&b)), B1);
    assert_eq!(header_octets(&old(&c)), C1);
}
