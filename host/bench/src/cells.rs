//! Records and tables as lists of numbers, to compare them: every cell of a record, the used ones of a table.

use pruvelaccio::*;

pub trait Cells {
    fn cells(&self, list: &mut Vec<u32>);
}

impl Cells for u32 {
    fn cells(&self, list: &mut Vec<u32>) {
        list.push(*self);
    }
}

impl Cells for bool {
    fn cells(&self, list: &mut Vec<u32>) {
        list.push(u32::from(*self));
    }
}

impl Cells for u8 {
    fn cells(&self, list: &mut Vec<u32>) {
        list.push(u32::from(*self));
    }
}

impl<T: Cells, const N: usize> Cells for [T; N] {
    fn cells(&self, list: &mut Vec<u32>) {
        self.iter().for_each(|entry| entry.cells(list));
    }
}

/// A struct's cells are those of its parts.
macro_rules! parts {
    ($($name:ident: $($part:ident)+;)+) => {
        $(impl Cells for $name {
            fn cells(&self, list: &mut Vec<u32>) {
                $(self.$part.cells(list);)+
            }
        })+
    };
}

parts! {
    OptionalNumber: present value;
    Text: chars len;
    OptionalText: present text;
    Address: urn name;
    OptionalAddress: present address;
    Addresses: list count;
    OptionalAddresses: present addresses;
    Front: version compression originator recipients information;
    Date: year month day;
    Time: hour minute second;
    Dtg: date time;
    OptionalDtg: present dtg;
    Stamp: dtg extension;
    OptionalStamp: present stamp;
    Identity: fad number subtype;
    OptionalIdentity: present identity;
    Format: umf version identity file;
    Codes: operation retransmit precedence classification;
    Handling: size codes marking;
    Requests: machine acknowledge reply;
    OptionalRequests: present requests;
    Times: origin perish requests;
    Compliance: code cantco cantpro;
    Response: stamp compliance amplification;
    OptionalResponse: present response;
    Reference: address stamp;
    References: list count;
    OptionalReferences: present references;
    Block: format handling times response references;
    Blocks: list count;
    Header: front sized blocks;
}

/// Every cell of a record, unused ones included.
pub fn all_cells(h: &Header) -> Vec<u32> {
    let mut list = Vec::with_capacity(16_384);
    h.cells(&mut list);
    list
}

fn used_number(x: &OptionalNumber, list: &mut Vec<u32>) {
    list.push(u32::from(x.present));
    if x.present {
        list.push(x.value);
    }
}

fn used_address(a: &Address, list: &mut Vec<u32>) {
    used_number(&a.urn, list);
    list.push(u32::from(a.name.present));
    if a.name.present {
        let text = &a.name.text;
        list.push(text.len);
        list.extend(text.chars.iter().take(text.len as usize).map(|&c| u32::from(c)));
    }
}

/// The cells of a table that carry meaning.
pub fn used_cells(t: &Table) -> Vec<u32> {
    let mut list = vec![t.count];
    for row in t.rows.iter().take(t.count as usize) {
        used_address(&row.key.address, &mut list);
        row.key.stamp.dtg.cells(&mut list);
        used_number(&row.key.stamp.extension, &mut list);
        row.asked.cells(&mut list);
        list.push(row.count);
        for r in row.recipients.iter().take(row.count as usize) {
            used_address(&r.address, &mut list);
            list.extend([r.machine, r.acknowledge, r.reply]);
        }
    }
    list
}
