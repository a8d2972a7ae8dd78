//! Vectors over the record layer (R3.1 to R3.8, R4.1 to R4.6), with the morning's records and requests
//! (R11.3) among them. `record_vectors stdin` prints them, one a line, in the forms that the head of
//! crates/record_vectors/src/main.rt gives; `record_vectors stdout` prints each with the answer of
//! this implementation.

use harness::limits::{LONGEST_RECORD, TRAIL_LIMIT};
use harness::record::{
    read_request, read_ticket, write_ticket, Kind, Origin, Request, Ticket, Trail, NO_TRAIL,
};
use harness::samples::{counted, w1, w3_with, TICKET_0, TICKET_1, TICKET_2};
use std::collections::HashSet;
use std::fmt;
use std::io::{self, BufWriter, Write};
use std::{env, iter};

/// R3.3: the eight maps of a ticket record.
const TICKET_MAPS: [u16; 8] = [0x0037, 0x0237, 0x007F, 0x027F, 0x047F, 0x067F, 0x01FF, 0x03FF];

/// R3.2: the bytes of the ticket fields 0 to 7, by map bit.
const TICKET_WIDTHS: [usize; 8] = [2, 4, 1, 1, 4, 4, 2, 2];

/// Records that are odd and readable: start after end; number 65535; all flags; back numbers above
/// the ticket's own.
const ODD_TICKETS: [&[u8]; 4] = [
    b"\x00\x37\x00\x00\x00\x40\x00\x00\x01\x00\x00\x90\x88\x00\x00\x03\xe8",
    b"\x00\x7f\xff\xff\x40\x00\x00\x00\x00\x01\x00\x00\x03\xf2\x00\x00\x90\x88\x00\x00",
    b"\x04\x7f\x00\x01\xff\xff\xff\xff\x00\x01\x00\x00\x03\xf2\x00\x00\x90\x88\x00\x00",
    b"\x01\xff\x00\x02\x40\x00\x00\x00\x00\x02\x00\x00\x03\xfc\x00\x00\x90\x88\xff\xfe\xff\xff\x01\x01",
];

/// The trail's count where it is full, and the bytes of an output that is just long enough.
const FULL: u8 = TRAIL_LIMIT as u8;
const ROOM: u8 = LONGEST_RECORD as u8;

/// A call of the record layer.
enum Vector {
    Ticket(Vec<u8>),
    /// The ticket of a record that reads, written to an output of this size.
    Write(u8, Vec<u8>),
    /// The same for any ticket value.
    Value(u8, Ticket),
    Same(Ticket, Ticket),
    Request(Vec<u8>),
}

impl fmt::Display for Vector {
    fn fmt(&self, f: &mut fmt::Formatter) -> fmt::Result {
        match self {
            Vector::Ticket(record) => write!(f, "ticket {}", Hex(record)),
            Vector::Write(size, record) => write!(f, "write {size:02x} {}", Hex(record)),
            Vector::Value(size, ticket) => write!(f, "value {size:02x} {}", Hex(&value(ticket))),
            Vector::Same(left, right) => {
                write!(f, "same {} {}", Hex(&value(left)), Hex(&value(right)))
            }
            Vector::Request(bytes) => write!(f, "request {}", Hex(bytes)),
        }
    }
}

impl Vector {
    fn answer(&self) -> String {
        match self {
            Vector::Ticket(record) => ticket_answer(record),
            Vector::Write(size, record) => {
                let ticket = read_ticket(record).expect("the record reads");
                write_answer(&ticket, *size)
            }
            Vector::Value(size, ticket) => write_answer(ticket, *size),
            Vector::Same(left, right) => u8::from(left == right).to_string(),
            Vector::Request(bytes) => request_answer(bytes),
        }
    }
}

/// Bytes in hexadecimal, `-` where there are none.
struct Hex<'a>(&'a [u8]);

impl fmt::Display for Hex<'_> {
    fn fmt(&self, f: &mut fmt::Formatter) -> fmt::Result {
        if self.0.is_empty() {
            return f.write_str("-");
        }
        self.0.iter().try_for_each(|byte| write!(f, "{byte:02x}"))
    }
}

/// The origin's number in a ticket value, its name, and its back numbers, 0 where there is none.
fn origin_parts(origin: Origin) -> (u8, &'static str, u16, u16) {
    match origin {
        Origin::Initial => (0, "initial", 0, 0),
        Origin::Direct { tgt } => (1, "direct", tgt, 0),
        Origin::S4U2self { tgt } => (2, "self", tgt, 0),
        Origin::Delegated { tgt, evidence } => (3, "delegated", tgt, evidence),
    }
}

/// The bytes of a ticket value, as many for every value.
fn value(ticket: &Ticket) -> Vec<u8> {
    let (origin, _, tgt, evidence) = origin_parts(ticket.origin);
    [
        &ticket.number.to_be_bytes()[..],
        &ticket.flags.to_be_bytes(),
        &[ticket.client, ticket.service],
        &ticket.start.to_be_bytes(),
        &ticket.end.to_be_bytes(),
        &[origin],
        &tgt.to_be_bytes(),
        &evidence.to_be_bytes(),
        &[ticket.hops],
        &ticket.trail,
        &[ticket.barred.into()],
    ]
    .concat()
}

/// The ticket's fields by name.
struct Fields(Ticket);

impl fmt::Display for Fields {
    fn fmt(&self, f: &mut fmt::Formatter) -> fmt::Result {
        let ticket = &self.0;
        let (_, origin, tgt, evidence) = origin_parts(ticket.origin);
        write!(f, "number={} flags={:08x}", ticket.number, ticket.flags)?;
        write!(f, " client={} service={}", ticket.client, ticket.service)?;
        write!(f, " start={} end={}", ticket.start, ticket.end)?;
        write!(f, " origin={origin} tgt={tgt} evidence={evidence}")?;
        let trail = Hex(&ticket.trail[..ticket.hops.into()]);
        write!(f, " trail={trail} barred={}", u8::from(ticket.barred))
    }
}

/// A name's place in the request: where its bytes start, and how many they are.
struct Place<'a> {
    request: &'a [u8],
    name: Option<&'a [u8]>,
}

impl fmt::Display for Place<'_> {
    fn fmt(&self, f: &mut fmt::Formatter) -> fmt::Result {
        let (at, length) = self.name.map_or((0, 0), |name| {
            let at = name.as_ptr().addr() - self.request.as_ptr().addr();
            (at, name.len())
        });
        write!(f, "{at}+{length}")
    }
}

fn ticket_answer(record: &[u8]) -> String {
    match read_ticket(record) {
        Ok(ticket) => format!("0 {}", Fields(ticket)),
        Err(error) => error.number().to_string(),
    }
}

/// What the writer answers, and an output of this size after it, which held 0xee before.
fn write_answer(ticket: &Ticket, size: u8) -> String {
    let mut output = vec![0xEE; size.into()];
    let answer = write_ticket(ticket, &mut output);
    let answer = answer.unwrap_or_else(|error| error.number().into());
    format!("{answer} {}", Hex(&output))
}

fn request_answer(bytes: &[u8]) -> String {
    let Request { kind, options, pac_options, till } = match read_request(bytes) {
        Ok(request) => request,
        Err(error) => return error.number().to_string(),
    };
    let (kind, tgt, evidence, user, service) = match kind {
        Kind::Initial { user } => (1, 0, 0, Some(user), None),
        Kind::Direct { tgt, service } => (2, tgt.number, 0, None, Some(service)),
        Kind::S4U2self { tgt, user } => (3, tgt.number, 0, Some(user), None),
        Kind::S4U2proxy { tgt, evidence, service } => {
            (4, tgt.number, evidence.number, None, Some(service))
        }
    };
    let place = |name| Place { request: bytes, name };
    let (user, service) = (place(user), place(service));
    format!(
        "0 kind={kind} options={options:08x} pac={pac_options:08x} till={till} tgt={tgt} \
         evidence={evidence} user={user} service={service}"
    )
}

/// Where a record of this map has its trail, or its end if it has none.
fn trail_place(map: u16) -> usize {
    let standing = (0..8).filter(|bit| map >> bit & 1 == 1);
    2 + standing.map(|bit| TICKET_WIDTHS[bit]).sum::<usize>()
}

/// A record of this map whose further bytes are these, with a trail of `hops` accounts.
fn record(map: u16, bytes: impl Iterator<Item = u8>, hops: u8) -> Vec<u8> {
    let mut record = map.to_be_bytes().to_vec();
    let trail_at = trail_place(map);
    if map & 0x0100 == 0 {
        record.extend(bytes.take(trail_at - 2));
    } else {
        record.extend(bytes.take(trail_at - 1 + usize::from(hops)));
        record[trail_at] = hops;
    }
    record
}

/// The record of a map whose fields are 0, with a trail of account 0.
fn shortest_record(map: u16) -> Vec<u8> {
    record(map, iter::repeat(0), 1)
}

/// The record of a map whose bytes count on from 0x81, with a trail of `hops` accounts.
fn counting_record(map: u16, hops: u8) -> Vec<u8> {
    record(map, (0x81..=u8::MAX).cycle(), hops)
}

fn longest_record(map: u16) -> Vec<u8> {
    counting_record(map, FULL)
}

/// Every shorter part of the bytes, and the bytes with one more.
fn cuts(bytes: &[u8]) -> impl Iterator<Item = Vec<u8>> + '_ {
    let shorter = (0..bytes.len()).map(|length| bytes[..length].to_vec());
    shorter.chain(iter::once([bytes, &[0]].concat()))
}

/// The bytes with each bit of their map changed.
fn flips(bytes: &[u8]) -> impl Iterator<Item = Vec<u8>> + '_ {
    let map = u16::from_be_bytes([bytes[0], bytes[1]]);
    (0..16).map(move |bit| [&(map ^ 1 << bit).to_be_bytes(), &bytes[2..]].concat())
}

/// A record that reads: its ticket, the ticket written, and the record cut and lengthened.
fn add_record(vectors: &mut Vec<Vector>, record: &[u8]) {
    vectors.push(Vector::Ticket(record.to_vec()));
    let sizes = [ROOM, ROOM - 1, 40];
    vectors.extend(sizes.map(|size| Vector::Write(size, record.to_vec())));
    vectors.extend(cuts(record).map(Vector::Ticket));
}

fn add_records(vectors: &mut Vec<Vector>) {
    for map in TICKET_MAPS {
        add_record(vectors, &shortest_record(map));
        add_record(vectors, &longest_record(map));
        vectors.extend(flips(&longest_record(map)).map(Vector::Ticket));
    }
    for record in [TICKET_0, TICKET_1, TICKET_2].iter().chain(&ODD_TICKETS) {
        add_record(vectors, record);
    }
    add_record(vectors, &record(0x03FF, iter::repeat(0xFF), FULL));
}

/// Trails of no, nine and 255 accounts, and maps that no origin has; then each map of the fields' bits
/// with the fields that it calls for.
fn add_refused_records(vectors: &mut Vec<Vector>) {
    for map in [0x01FF, 0x03FF] {
        vectors
            .extend([0, FULL + 1, u8::MAX].map(|hops| Vector::Ticket(counting_record(map, hops))));
    }
    let maps = [0x0637, 0x0437, 0x05FF, 0x0B7F];
    vectors.extend(maps.map(|map| Vector::Ticket(longest_record(map))));
    vectors.extend((0..=0x07FF).map(|map| Vector::Ticket(record(map, iter::repeat(1), 1))));
}

/// A ticket made by hand that has a record, of this origin and trail.
fn made_ticket(origin: Origin, hops: u8, trail: Trail) -> Ticket {
    Ticket {
        number: 0x0102,
        flags: 0x4040_0000,
        client: 3,
        service: if origin == Origin::Initial { 0 } else { 4 },
        start: 1000,
        end: 37000,
        origin,
        trail,
        hops,
        barred: false,
    }
}

const FULL_TRAIL: Trail = [1, 2, 3, 4, 5, 6, 7, 8];
/// A trail of two accounts with a stale byte after them.
const STALE_TRAIL: Trail = [1, 2, 3, 0, 0, 0, 0, 0];
const DIRECT: Origin = Origin::Direct { tgt: 0x0506 };
const S4U2SELF: Origin = Origin::S4U2self { tgt: 0x0506 };
const DELEGATED: Origin = Origin::Delegated { tgt: 0x0506, evidence: 0x0708 };

/// R3.6: ticket values without a record, and two with one, written to outputs that are large enough
/// and too small.
fn add_values(vectors: &mut Vec<Vector>) {
    let initial = made_ticket(Origin::Initial, 0, NO_TRAIL);
    let refused = [
        Ticket { service: 1, ..initial },
        made_ticket(Origin::Initial, 1, [5, 0, 0, 0, 0, 0, 0, 0]),
        made_ticket(DIRECT, 1, NO_TRAIL),
        made_ticket(S4U2SELF, 0, [0, 0, 0, 0, 0, 0, 0, 9]),
        made_ticket(DELEGATED, 0, NO_TRAIL),
        made_ticket(DELEGATED, FULL + 1, FULL_TRAIL),
        made_ticket(DELEGATED, 2, STALE_TRAIL),
    ];
    for ticket in refused {
        vectors.extend([ROOM, ROOM - 1].map(|size| Vector::Value(size, ticket)));
    }
    for ticket in [initial, made_ticket(DELEGATED, FULL, FULL_TRAIL)] {
        vectors.extend([0, ROOM - 1, ROOM, ROOM + 1].map(|size| Vector::Value(size, ticket)));
    }
}

/// A trail of zeros, and trails with a single other byte, in each place.
fn single_trails() -> impl Iterator<Item = Trail> {
    let single = |place| {
        let mut trail = NO_TRAIL;
        trail[place] = 1;
        trail
    };
    iter::once(NO_TRAIL).chain((0..TRAIL_LIMIT).map(single))
}

/// Each origin with each length of the trail, and with each of these trails.
fn add_trails(vectors: &mut Vec<Vector>) {
    for origin in [Origin::Initial, DIRECT, S4U2SELF, DELEGATED] {
        for hops in 0..=FULL + 1 {
            let tickets = single_trails().map(|trail| made_ticket(origin, hops, trail));
            vectors.extend(tickets.map(|ticket| Vector::Value(ROOM, ticket)));
        }
    }
}

/// Copies of a delegated ticket, each with one field altered.
fn altered_copies(ticket: Ticket) -> [Ticket; 19] {
    let Ticket { number, flags, client, service, start, end, .. } = ticket;
    let delegated = |tgt, evidence| Origin::Delegated { tgt, evidence };
    [
        Ticket { number: number ^ 1, ..ticket },
        Ticket { number: number ^ 0x8000, ..ticket },
        Ticket { flags: flags ^ 1, ..ticket },
        Ticket { flags: flags ^ 0x8000_0000, ..ticket },
        Ticket { client: client ^ 1, ..ticket },
        Ticket { client: client ^ 0x80, ..ticket },
        Ticket { service: service ^ 1, ..ticket },
        Ticket { service: service ^ 0x80, ..ticket },
        Ticket { start: start ^ 1, ..ticket },
        Ticket { start: start ^ 0x8000_0000, ..ticket },
        Ticket { end: end ^ 1, ..ticket },
        Ticket { end: end ^ 0x8000_0000, ..ticket },
        Ticket { origin: S4U2SELF, ..ticket },
        Ticket { origin: delegated(0x0507, 0x0708), ..ticket },
        Ticket { origin: delegated(0x8506, 0x0708), ..ticket },
        Ticket { origin: delegated(0x0506, 0x0709), ..ticket },
        Ticket { origin: delegated(0x0506, 0x8708), ..ticket },
        Ticket { hops: FULL - 1, ..ticket },
        Ticket { barred: true, ..ticket },
    ]
}

/// A ticket against itself, and against copies with one field or one place of the trail altered.
fn add_comparisons(vectors: &mut Vec<Vector>) {
    let ticket = made_ticket(DELEGATED, FULL, FULL_TRAIL);
    vectors.push(Vector::Same(ticket, ticket));
    vectors.extend(altered_copies(ticket).map(|copy| Vector::Same(ticket, copy)));
    for place in 0..TRAIL_LIMIT {
        let mut copy = ticket;
        copy.trail[place] ^= 0x80;
        vectors.push(Vector::Same(ticket, copy));
    }
    let two_hops = made_ticket(DELEGATED, 2, [1, 2, 0, 0, 0, 0, 0, 0]);
    vectors.push(Vector::Same(two_hops, Ticket { trail: STALE_TRAIL, ..two_hops }));
}

/// Tickets of each origin against one another, alike but for the origin.
fn add_origin_comparisons(vectors: &mut Vec<Vector>) {
    let ticket = made_ticket(S4U2SELF, 0, NO_TRAIL);
    let tickets = [
        Origin::Initial,
        DIRECT,
        Origin::Direct { tgt: 0x0507 },
        S4U2SELF,
        Origin::S4U2self { tgt: 0x0507 },
        DELEGATED,
    ]
    .map(|origin| {
        let mut copy = ticket;
        copy.origin = origin;
        copy
    });
    for left in tickets {
        vectors.extend(tickets.map(|right| Vector::Same(left, right)));
    }
}

/// W2: with this TGT field, kind 3 for `tech`.
fn w2_with(tgt: &[u8]) -> Vec<u8> {
    [b"\x00\x51\x03", tgt, &counted(b"tech")].concat()
}

/// The requests of the morning, cut, lengthened and with other maps.
fn add_morning(vectors: &mut Vec<Vector>) {
    for request in [w1(), w2_with(&counted(TICKET_0)), w3_with(&counted(TICKET_1))] {
        vectors.push(Vector::Request(request.clone()));
        vectors.extend(cuts(&request).chain(flips(&request)).map(Vector::Request));
    }
}

/// Requests of each kind with an empty name and with one of 255 bytes, each other than the next.
fn add_names(vectors: &mut Vec<Vector>) {
    let long_name: Vec<u8> = (0..255).collect();
    for name in [&[][..], &long_name] {
        let (tgt, evidence, name) = (counted(TICKET_0), counted(TICKET_1), counted(name));
        let requests = [
            [&b"\x00\x41\x01"[..], &name].concat(),
            [b"\x00\x91\x02", &tgt[..], &name].concat(),
            [b"\x00\x51\x03", &tgt[..], &name].concat(),
            [b"\x00\xb3\x04\x00\x02\x00\x00", &tgt[..], &evidence, &name].concat(),
        ];
        vectors.extend(requests.map(Vector::Request));
    }
}

/// Requests with all option bits and the latest till, and with the longest record as either ticket.
fn add_extremes(vectors: &mut Vec<Vector>) {
    let (longest, shortest) = (counted(&longest_record(0x03FF)), counted(&shortest_record(0x0037)));
    let name = counted(b"web");
    let requests = [
        [b"\x00\x4b\x01", &[0xFF; 8][..], &name].concat(),
        [b"\x00\x9b\x02", &[0xFF; 8][..], &longest, &name].concat(),
        [b"\x00\x5b\x03", &[0xFF; 8][..], &longest, &name].concat(),
        [b"\x00\xbf\x04", &[0xFF; 12][..], &longest, &shortest, &name].concat(),
        [b"\x00\xbf\x04", &[0xFF; 12][..], &shortest, &longest, &name].concat(),
    ];
    vectors.extend(requests.map(Vector::Request));
}

/// The request of a kind byte with exactly the fields that a map calls for.
fn mapped_request(kind: u8, map: u16) -> Vec<u8> {
    let fields: [&[u8]; 8] = [
        &[kind],
        &[1, 2, 3, 4],
        &[5, 6, 7, 8],
        &[9, 10, 11, 12],
        &counted(TICKET_0),
        &counted(TICKET_1),
        &counted(b"ab"),
        &counted(b"cde"),
    ];
    let mut request = map.to_be_bytes().to_vec();
    for (bit, field) in fields.iter().enumerate() {
        if map >> bit & 1 == 1 {
            request.extend(*field);
        }
    }
    request
}

/// Each kind byte with every map below 0x200, and with each higher bit beside a map that it takes.
fn add_kinds(vectors: &mut Vec<Vector>) {
    for kind in [0, 1, 2, 3, 4, 5, 255] {
        vectors.extend((0..0x0200).map(|map| Vector::Request(mapped_request(kind, map))));
        let taken = (0..0x0100).filter(|&map| read_request(&mapped_request(kind, map)).is_ok());
        let higher = taken.flat_map(|map| (9..16).map(move |bit| map | 1 << bit));
        vectors.extend(higher.map(|map| Vector::Request(mapped_request(kind, map))));
    }
}

/// A ticket field whose length byte is not its record's length, or whose record has a byte too many
/// or too few.
fn bad_ticket_fields(record: &[u8]) -> [Vec<u8>; 6] {
    let length = record.len() as u8;
    let with_length = |length| [&[length], record].concat();
    [
        with_length(length - 1),
        with_length(length + 1),
        with_length(0),
        with_length(255),
        counted(&[record, &[0]].concat()),
        counted(&record[..record.len() - 1]),
    ]
}

fn add_bad_ticket_fields(vectors: &mut Vec<Vector>) {
    vectors.extend(bad_ticket_fields(TICKET_0).map(|tgt| Vector::Request(w2_with(&tgt))));
    vectors.extend(bad_ticket_fields(TICKET_1).map(|evidence| Vector::Request(w3_with(&evidence))));
}

/// All vectors, each once: records share their shortest parts, and requests without a kind byte are
/// the same for every kind.
fn vectors() -> Vec<Vector> {
    let mut vectors = Vec::new();
    add_records(&mut vectors);
    add_refused_records(&mut vectors);
    add_values(&mut vectors);
    add_trails(&mut vectors);
    add_comparisons(&mut vectors);
    add_origin_comparisons(&mut vectors);
    add_morning(&mut vectors);
    add_names(&mut vectors);
    add_extremes(&mut vectors);
    add_kinds(&mut vectors);
    add_bad_ticket_fields(&mut vectors);
    let mut seen = HashSet::new();
    vectors.retain(|vector| seen.insert(vector.to_string()));
    vectors
}

fn main() -> io::Result<()> {
    let file = env::args().nth(1);
    let mut out = BufWriter::new(io::stdout().lock());
    for vector in vectors() {
        match file.as_deref() {
            Some("stdin") => writeln!(out, "{vector}")?,
            Some("stdout") => writeln!(out, "{vector} -> {}", vector.answer())?,
            _ => return Err(io::Error::other("name the file to print: stdin or stdout")),
        }
    }
    out.flush()
}
