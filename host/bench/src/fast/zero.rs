//! The record with every cell 0, which a reading starts from, and such a row.

use pruvelaccio::*;

const NO_NUMBER: OptionalNumber = OptionalNumber { present: false, value: 0 };
const NO_TEXT: OptionalText =
    OptionalText { present: false, text: Text { chars: [0; 64], len: 0 } };
const NO_ADDRESS: Address = Address { urn: NO_NUMBER, name: NO_TEXT };
const NO_ADDRESSES: OptionalAddresses =
    OptionalAddresses { present: false, addresses: Addresses { list: [NO_ADDRESS; 16], count: 0 } };

const NO_DTG: Dtg =
    Dtg { date: Date { year: 0, month: 0, day: 0 }, time: Time { hour: 0, minute: 0, second: 0 } };
const NO_STAMP: Stamp = Stamp { dtg: NO_DTG, extension: NO_NUMBER };
const NO_REQUESTS: Requests = Requests { machine: false, acknowledge: false, reply: false };

const NO_FORMAT: Format = Format {
    umf: 0,
    version: NO_NUMBER,
    identity: OptionalIdentity {
        present: false,
        identity: Identity { fad: 0, number: 0, subtype: NO_NUMBER },
    },
    file: NO_TEXT,
};

const NO_HANDLING: Handling = Handling {
    size: NO_NUMBER,
    codes: Codes { operation: 0, retransmit: 0, precedence: 0, classification: 0 },
    marking: NO_TEXT,
};

const NO_TIMES: Times = Times {
    origin: OptionalStamp { present: false, stamp: NO_STAMP },
    perish: OptionalDtg { present: false, dtg: NO_DTG },
    requests: OptionalRequests { present: false, requests: NO_REQUESTS },
};

const NO_RESPONSE: OptionalResponse = OptionalResponse {
    present: false,
    response: Response {
        stamp: NO_STAMP,
        compliance: Compliance { code: 0, cantco: NO_NUMBER, cantpro: NO_NUMBER },
        amplification: NO_TEXT,
    },
};

const NO_REFERENCES: OptionalReferences = OptionalReferences {
    present: false,
    references: References {
        list: [Reference { address: NO_ADDRESS, stamp: NO_STAMP }; 4],
        count: 0,
    },
};

const NO_BLOCK: Block = Block {
    format: NO_FORMAT,
    handling: NO_HANDLING,
    times: NO_TIMES,
    response: NO_RESPONSE,
    references: NO_REFERENCES,
};

pub const NO_HEADER: Header = Header {
    front: Front {
        version: 0,
        compression: NO_NUMBER,
        originator: OptionalAddress { present: false, address: NO_ADDRESS },
        recipients: NO_ADDRESSES,
        information: NO_ADDRESSES,
    },
    sized: false,
    blocks: Blocks { list: [NO_BLOCK; 16], count: 0 },
};

const NO_RECIPIENT: Recipient = Recipient { address: NO_ADDRESS, machine: 0, acknowledge: 0, reply: 0 };

pub const NO_ROW: Row = Row {
    key: Key { address: NO_ADDRESS, stamp: NO_STAMP },
    asked: NO_REQUESTS,
    recipients: [NO_RECIPIENT; 16],
    count: 0,
};
