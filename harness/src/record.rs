//! Tickets with their reader and writer (R3.1 to R3.8), and the reader of requests (R4.1 to R4.6).

pub use crate::errors::Error;
use crate::limits::{LONGEST_RECORD, TRAIL_LIMIT};

/// The number of an account as a ticket has it: one byte, which no account need have.
pub type Principal = u8;

/// The accounts of a trail, and zeros after them.
pub type Trail = [Principal; TRAIL_LIMIT];

/// The trail of a ticket that has none.
pub const NO_TRAIL: Trail = [0; TRAIL_LIMIT];

/// R3.3: the maps of the four origins, and the bit of the barred mark, which each of them may have.
const INITIAL: u16 = 0x0037;
const DIRECT: u16 = 0x007F;
const S4U2SELF: u16 = 0x047F;
const DELEGATED: u16 = 0x01FF;
const BARRED: u16 = 0x0200;

/// R4.1: the request map bits of the fields that a request may lack.
pub const OPTIONS: u16 = 1 << 1;
pub const PAC_OPTIONS: u16 = 1 << 2;
pub const TILL: u16 = 1 << 3;

/// R3.3: where a ticket comes from, with the numbers of the tickets that it rests on.
#[derive(Clone, Copy, Debug, PartialEq, Eq)]
pub enum Origin {
    Initial,
    Direct { tgt: u16 },
    S4U2self { tgt: u16 },
    Delegated { tgt: u16, evidence: u16 },
}

impl Origin {
    /// R9.1: the number of the ticket one step back; an initial ticket has none.
    pub fn back(&self) -> Option<u16> {
        match *self {
            Origin::Initial => None,
            Origin::Direct { tgt } | Origin::S4U2self { tgt } => Some(tgt),
            Origin::Delegated { evidence, .. } => Some(evidence),
        }
    }
}

/// R3.2: a ticket. An initial one has service 0. The trail is the first `hops` places of `trail`.
#[derive(Clone, Copy, Debug, PartialEq, Eq)]
pub struct Ticket {
    pub number: u16,
    pub flags: u32,
    pub client: Principal,
    pub service: Principal,
    pub start: u32,
    pub end: u32,
    pub origin: Origin,
    pub trail: Trail,
    pub hops: u8,
    pub barred: bool,
}

impl Ticket {
    /// R3.3: the map of the ticket's record.
    fn map(&self) -> u16 {
        let map = match self.origin {
            Origin::Initial => INITIAL,
            Origin::Direct { .. } => DIRECT,
            Origin::S4U2self { .. } => S4U2SELF,
            Origin::Delegated { .. } => DELEGATED,
        };
        if self.barred {
            map | BARRED
        } else {
            map
        }
    }

    /// R3.6: whether some record reads as this ticket. An initial one may have no service, only a
    /// delegated one has a trail, which is not empty, and the places after a trail are 0.
    fn has_record(&self) -> bool {
        let hops_allowed = match self.origin {
            Origin::Delegated { .. } => 1..=self.trail.len(),
            _ => 0..=0,
        };
        let hops = usize::from(self.hops);
        hops_allowed.contains(&hops)
            && self.trail[hops..].iter().all(|&principal| principal == 0)
            && (self.origin != Origin::Initial || self.service == 0)
    }
}

/// The bytes that are still to be read.
struct Unread<'a>(&'a [u8]);

impl<'a> Unread<'a> {
    fn take(&mut self, count: usize) -> Result<&'a [u8], Error> {
        let (taken, rest) = self.0.split_at_checked(count).ok_or(Error::Generic)?;
        self.0 = rest;
        Ok(taken)
    }

    fn take_array<const N: usize>(&mut self) -> Result<[u8; N], Error> {
        let (taken, rest) = self.0.split_first_chunk().ok_or(Error::Generic)?;
        self.0 = rest;
        Ok(*taken)
    }

    fn u8(&mut self) -> Result<u8, Error> {
        self.take_array().map(u8::from_be_bytes)
    }

    fn u16(&mut self) -> Result<u16, Error> {
        self.take_array().map(u16::from_be_bytes)
    }

    fn u32(&mut self) -> Result<u32, Error> {
        self.take_array().map(u32::from_be_bytes)
    }

    /// The field if it stands, else 0.
    fn u32_if(&mut self, stands: bool) -> Result<u32, Error> {
        if stands {
            self.u32()
        } else {
            Ok(0)
        }
    }

    /// A length byte, and that many bytes.
    fn counted(&mut self) -> Result<&'a [u8], Error> {
        let length = self.u8()?;
        self.take(length.into())
    }

    /// A length byte, and a ticket's record of that many bytes.
    fn ticket(&mut self) -> Result<Ticket, Error> {
        self.counted().and_then(read_ticket)
    }

    /// R3.3: the origin of a map, its barred mark left out, with the back numbers.
    fn origin(&mut self, map: u16) -> Result<Origin, Error> {
        Ok(match map {
            INITIAL => Origin::Initial,
            DIRECT => Origin::Direct { tgt: self.u16()? },
            S4U2SELF => Origin::S4U2self { tgt: self.u16()? },
            DELEGATED => Origin::Delegated { tgt: self.u16()?, evidence: self.u16()? },
            _ => return Err(Error::Generic),
        })
    }

    /// R3.2: the trail and its count, which is neither 0 nor above the limit.
    fn trail(&mut self) -> Result<(Trail, u8), Error> {
        let principals = self.counted()?;
        let mut trail = NO_TRAIL;
        if principals.is_empty() || principals.len() > TRAIL_LIMIT {
            return Err(Error::Generic);
        }
        trail[..principals.len()].copy_from_slice(principals);
        Ok((trail, principals.len() as u8))
    }

    /// 60 where a byte is left over.
    fn finish(self) -> Result<(), Error> {
        if self.0.is_empty() {
            Ok(())
        } else {
            Err(Error::Generic)
        }
    }
}

/// R3.5: the ticket of a record. The fields are read in the order of their map bits (R3.1).
pub fn read_ticket(record: &[u8]) -> Result<Ticket, Error> {
    let mut unread = Unread(record);
    let map = unread.u16()?;
    let unmarked = map & !BARRED;
    let number = unread.u16()?;
    let flags = unread.u32()?;
    let client = unread.u8()?;
    let service = if unmarked == INITIAL { 0 } else { unread.u8()? };
    let start = unread.u32()?;
    let end = unread.u32()?;
    let origin = unread.origin(unmarked)?;
    let (trail, hops) = if unmarked == DELEGATED { unread.trail()? } else { (NO_TRAIL, 0) };
    unread.finish()?;
    let barred = map & BARRED != 0;
    Ok(Ticket { number, flags, client, service, start, end, origin, trail, hops, barred })
}

/// An output, filled from its start.
pub(crate) struct Filled<'a> {
    pub output: &'a mut [u8],
    pub length: usize,
}

impl Filled<'_> {
    pub fn put(&mut self, bytes: &[u8]) {
        self.output[self.length..][..bytes.len()].copy_from_slice(bytes);
        self.length += bytes.len();
    }
}

/// R3.7: writes the ticket's record to the start of the output, and gives the record's length.
pub fn write_ticket(ticket: &Ticket, output: &mut [u8]) -> Result<usize, Error> {
    if !ticket.has_record() {
        return Err(Error::Generic);
    }
    if output.len() < LONGEST_RECORD {
        return Err(Error::ResponseTooBig);
    }
    let mut record = Filled { output, length: 0 };
    record.put(&ticket.map().to_be_bytes());
    record.put(&ticket.number.to_be_bytes());
    record.put(&ticket.flags.to_be_bytes());
    record.put(&[ticket.client]);
    if ticket.origin != Origin::Initial {
        record.put(&[ticket.service]);
    }
    record.put(&ticket.start.to_be_bytes());
    record.put(&ticket.end.to_be_bytes());
    match ticket.origin {
        Origin::Initial => {}
        Origin::Direct { tgt } | Origin::S4U2self { tgt } => record.put(&tgt.to_be_bytes()),
        Origin::Delegated { tgt, evidence } => {
            record.put(&tgt.to_be_bytes());
            record.put(&evidence.to_be_bytes());
            record.put(&[ticket.hops]);
            record.put(&ticket.trail[..ticket.hops.into()]);
        }
    }
    Ok(record.length)
}

/// R4.2: what a request asks for, with the tickets and names that its kind needs.
#[derive(Clone, Copy, Debug, PartialEq, Eq)]
pub enum Kind<'a> {
    Initial { user: &'a [u8] },
    Direct { tgt: Ticket, service: &'a [u8] },
    S4U2self { tgt: Ticket, user: &'a [u8] },
    S4U2proxy { tgt: Ticket, evidence: Ticket, service: &'a [u8] },
}

/// R4.1: a request. A number that it lacks is 0 here (R4.4, R4.5).
#[derive(Clone, Copy, Debug, PartialEq, Eq)]
pub struct Request<'a> {
    pub kind: Kind<'a>,
    pub options: u32,
    pub pac_options: u32,
    pub till: u32,
}

/// R4.2: the map bits that a kind needs, and those that it allows.
pub(crate) fn map_bits(kind: u8) -> Result<(u16, u16), Error> {
    match kind {
        1 => Ok((0x41, 0x4B)),
        2 => Ok((0x91, 0x9B)),
        3 => Ok((0x51, 0x5B)),
        4 => Ok((0xB3, 0xBF)),
        _ => Err(Error::Generic),
    }
}

/// R4.3: the request of these bytes. Its names are parts of them (R4.6).
pub fn read_request(request: &[u8]) -> Result<Request<'_>, Error> {
    let mut unread = Unread(request);
    let map = unread.u16()?;
    // Every kind needs bit 0: without it this is not the kind's byte, and whatever it is, the map is
    // refused.
    let kind = unread.u8()?;
    let (needed, allowed) = map_bits(kind)?;
    if map & needed != needed || map & !allowed != 0 {
        return Err(Error::Generic);
    }
    let options = unread.u32_if(map & OPTIONS != 0)?;
    let pac_options = unread.u32_if(map & PAC_OPTIONS != 0)?;
    let till = unread.u32_if(map & TILL != 0)?;
    // The fields of a value are read in the order in which they are written here, the map's order.
    let kind = match kind {
        1 => Kind::Initial { user: unread.counted()? },
        2 => Kind::Direct { tgt: unread.ticket()?, service: unread.counted()? },
        3 => Kind::S4U2self { tgt: unread.ticket()?, user: unread.counted()? },
        4 => Kind::S4U2proxy {
            tgt: unread.ticket()?,
            evidence: unread.ticket()?,
            service: unread.counted()?,
        },
        _ => return Err(Error::Generic),
    };
    unread.finish()?;
    Ok(Request { kind, options, pac_options, till })
}

#[cfg(test)]
mod tests {
    use super::*;
    use crate::samples::{counted, w1, w3_with, TICKET_0, TICKET_1, TICKET_2};

    const RECORDS: [&[u8]; 3] = [TICKET_0, TICKET_1, TICKET_2];

    #[test]
    fn r3_8_a_record_that_reads_is_written_again() {
        for record in RECORDS {
            let ticket = read_ticket(record).unwrap();
            let mut output = [0; LONGEST_RECORD];
            let length = write_ticket(&ticket, &mut output).unwrap();
            assert_eq!(&output[..length], record);
        }
    }

    #[test]
    fn r3_7_a_short_output_is_refused_and_left_as_it_was() {
        let ticket = read_ticket(RECORDS[0]).unwrap();
        let mut output = [0xEE; LONGEST_RECORD - 1];
        assert_eq!(write_ticket(&ticket, &mut output), Err(Error::ResponseTooBig));
        assert_eq!(output, [0xEE; LONGEST_RECORD - 1]);
    }

    #[test]
    fn r3_7_a_value_without_a_record_is_60_before_52() {
        let [initial, s4u2self, delegated] = RECORDS.map(|record| read_ticket(record).unwrap());
        let stale = [1, 0, 0, 0, 0, 0, 0, 9];
        for odd in [
            Ticket { service: 1, ..initial },
            Ticket { hops: 1, ..initial },
            Ticket { trail: stale, ..s4u2self },
            Ticket { hops: 0, ..delegated },
            Ticket { hops: 0, trail: NO_TRAIL, ..delegated },
            Ticket { hops: 9, ..delegated },
            Ticket { hops: 255, ..delegated },
            Ticket { trail: stale, ..delegated },
        ] {
            let mut output = [0xEE; LONGEST_RECORD];
            assert_eq!(write_ticket(&odd, &mut output), Err(Error::Generic));
            assert_eq!(write_ticket(&odd, &mut []), Err(Error::Generic));
            assert_eq!(output, [0xEE; LONGEST_RECORD]);
        }
    }

    #[test]
    fn r3_7_bytes_past_the_record_stay_as_they_were() {
        let ticket = read_ticket(RECORDS[1]).unwrap();
        let mut output = [0xEE; LONGEST_RECORD];
        assert_eq!(write_ticket(&ticket, &mut output), Ok(20));
        assert_eq!(output[20..], [0xEE; LONGEST_RECORD - 20]);
    }

    #[test]
    fn r4_3_a_byte_too_few_or_too_many_is_60() {
        let whole = w3_with(&counted(TICKET_1));
        assert!(read_request(&whole).is_ok());
        assert!((0..whole.len()).all(|cut| read_request(&whole[..cut]) == Err(Error::Generic)));
        assert_eq!(read_request(&[&whole[..], &[0]].concat()), Err(Error::Generic));
        let longer = [TICKET_1, &[0]].concat();
        for evidence in [&[][..], &longer, &TICKET_1[..TICKET_1.len() - 1]] {
            assert_eq!(read_request(&w3_with(&counted(evidence))), Err(Error::Generic));
        }
    }

    #[test]
    fn r11_3_the_first_request_of_the_morning_reads() {
        let kind = Kind::Initial { user: b"web" };
        let request = Request { kind, options: 0, pac_options: 0, till: 0 };
        assert_eq!(read_request(&w1()), Ok(request));
    }
}
