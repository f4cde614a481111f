//! Composes a message, prints the datagram that a host would send, and enters the message into the table.

use pruvelaccio::{write, Address, Block, Dtg, Header, Refusal, Requests, Stamp, Table};

/// What the message says; the gateway only counts its octets.
const DATA: [u8; 1] = [0x01];

fn main() -> Result<(), Refusal> {
    let stamp = Stamp::new(Dtg::new([96, 7, 3], [16, 27, 55]));
    let asked = Requests { machine: true, acknowledge: false, reply: false };
    let block = Block::new(2).with_origin(stamp).with_requests(asked);
    let record = Header::new(&[block])
        .with_originator(Address::urn(207))
        .with_recipients(&[Address::urn(3)]);

    let mut header = [0; 8192];
    let length = write(&record, DATA.len(), &mut header)?;
    let datagram = [&header[..length], &DATA].concat();
    println!("{}", datagram.iter().map(|octet| format!("{octet:02X}")).collect::<String>());

    let mut table = Table::empty();
    table.post(&record, 1, DATA.len())?;
    let mut row = [0; 4096];
    for number in 0..=table.count {
        let octets = table.list_row(number, &mut row)?;
        print!("{}", String::from_utf8_lossy(&row[..octets]));
    }
    Ok(())
}
