//! The calls of include/tickets.h, answered by the second implementation.

use crate::accounts::{self, Account, Edit, ALL_FLAGS, DISABLED};
use crate::limits::{ACCOUNT_LIMIT, NAME_LIMIT, TRAIL_LIMIT};
use crate::record::{
    read_request as read, read_ticket, write_ticket, Error, Kind, Origin, Request, Ticket,
};
use crate::request_writer::{self, Parts};
use crate::saving;
use crate::service::Service;
use crate::words::{AccountWords, LedgerWords};

/// What a call answers: the error number and 0, or 0 and a value.
#[derive(Clone, Copy, Debug, PartialEq, Eq)]
pub struct Answer {
    pub error: u32,
    pub value: u32,
}

#[cfg(feature = "library")]
impl From<tickets::raw::Answer> for Answer {
    fn from(answer: tickets::raw::Answer) -> Self {
        let tickets::raw::Answer { error, value } = answer;
        Self { error, value }
    }
}

impl Answer {
    /// The answer of a result.
    pub fn of(result: Result<u32, Error>) -> Self {
        match result {
            Ok(value) => Answer { error: 0, value },
            Err(error) => Answer { error: error.number().into(), value: 0 },
        }
    }

    /// The answer of a result that is a length.
    pub fn of_length(result: Result<usize, Error>) -> Self {
        Self::of(result.map(|length| length as u32))
    }
}

/// Kind, options, PAC options, till, the TGT's number, the evidence's number, where the user's name
/// lies and its length, where the service's name lies and its length.
pub type RequestFields = [u64; 10];

/// Whether the account is set, flags, send set, receive set, lifetime, and the name's length.
pub type AccountFields = [u64; 6];

/// An account's name, and zeros behind it.
pub type NameBytes = [u8; NAME_LIMIT];

/// Number, flags, client, service, start, end, the TGT's number, the evidence's number, the trail's
/// count, barred mark, origin, and the eight places of the trail.
pub type TicketFields = [u64; TRAIL_AT + TRAIL_LIMIT];

/// Where the places of the trail begin.
const TRAIL_AT: usize = 11;

/// `tickets_rewrite`.
pub fn rewrite(record: &[u8], output: &mut [u8]) -> Answer {
    Answer::of_length(read_ticket(record).and_then(|ticket| write_ticket(&ticket, output)))
}

/// `tickets_edit`.
pub fn edit(service: &mut Service, edit: &Edit) -> u32 {
    error_of(service.edit(edit))
}

/// What `tickets_find_name` answers where no account's name matches.
pub const NO_ACCOUNT: u32 = ACCOUNT_LIMIT as u32;

/// `tickets_find_name`.
pub fn find_name(service: &Service, name: &[u8]) -> u32 {
    service.table.find_name(name).map_or(NO_ACCOUNT, u32::from)
}

/// `tickets_words_match`.
pub fn words_match(a: u64, b: u64) -> u32 {
    accounts::words_match(a, b).into()
}

/// `tickets_request`.
pub fn request(service: &mut Service, request: &[u8], clock: u32, output: &mut [u8]) -> Answer {
    Answer::of_length(service.request(request, clock, output))
}

/// `tickets_clear`.
pub fn clear(service: &mut Service, clock: u32) -> u32 {
    service.clear(clock)
}

/// `tickets_descent`.
pub fn descent(service: &Service, number: u32) -> Answer {
    Answer::of(service.descent(number))
}

/// The error number of a result, 0 for none.
fn error_of(result: Result<(), Error>) -> u32 {
    result.map_or_else(|error| error.number().into(), |()| 0)
}

/// R2.13: the numbers of an account, and its name.
fn account_fields(account: Option<&Account>) -> (AccountFields, NameBytes) {
    let Some(account) = account else {
        return ([0, DISABLED.into(), 0, 0, 0, 0], [0; NAME_LIMIT]);
    };
    let flags = account.flags & ALL_FLAGS;
    let length = account.name().len() as u64;
    let fields = [1, flags.into(), account.send, account.receive, account.lifetime.into(), length];
    (fields, account.name.padded())
}

/// `tickets_account`.
pub fn account(
    service: &Service,
    number: u32,
    fields: &mut AccountFields,
    name: &mut NameBytes,
) -> u32 {
    let read = service.table.read(number).map(account_fields);
    error_of(read.map(|read| (*fields, *name) = read))
}

/// `tickets_held`.
pub fn held(service: &Service) -> u32 {
    service.held().len() as u32
}

/// `tickets_record_at`.
pub fn record_at(service: &Service, place: u32, output: &mut [u8]) -> Answer {
    Answer::of_length(service.record_at(place, output))
}

/// R7.7: the numbers of a ticket.
fn ticket_fields(ticket: &Ticket) -> TicketFields {
    let (origin, tgt, evidence) = match ticket.origin {
        Origin::Initial => (1, 0, 0),
        Origin::Direct { tgt } => (2, tgt, 0),
        Origin::S4U2self { tgt } => (3, tgt, 0),
        Origin::Delegated { tgt, evidence } => (4, tgt, evidence),
    };
    let numbers: [u64; TRAIL_AT] = [
        ticket.number.into(),
        ticket.flags.into(),
        ticket.client.into(),
        ticket.service.into(),
        ticket.start.into(),
        ticket.end.into(),
        tgt.into(),
        evidence.into(),
        ticket.hops.into(),
        ticket.barred.into(),
        origin,
    ];
    let mut fields = [0; TRAIL_AT + TRAIL_LIMIT];
    fields[..TRAIL_AT].copy_from_slice(&numbers);
    fields[TRAIL_AT..].copy_from_slice(&ticket.trail.map(u64::from));
    fields
}

/// `tickets_ticket_at`.
pub fn ticket_at(service: &Service, place: u32, fields: &mut TicketFields) -> u32 {
    error_of(service.ticket_at(place).map(|ticket| *fields = ticket_fields(ticket)))
}

/// `tickets_save`.
pub fn save(accounts: &AccountWords, ledger: &LedgerWords, output: &mut [u8]) -> Answer {
    Answer::of_length(saving::save(accounts, ledger, output))
}

/// `tickets_load`.
pub fn load(accounts: &mut AccountWords, ledger: &mut LedgerWords, saved: &[u8]) -> u32 {
    error_of(saving::load(accounts, ledger, saved))
}

/// `tickets_write_request`.
pub fn write_request(parts: &Parts, output: &mut [u8]) -> Answer {
    Answer::of_length(request_writer::write_request(parts, output))
}

/// The name of an error number (R6.8), that of 0 among them.
pub fn error_name(number: u32) -> Option<&'static str> {
    if number == 0 {
        return Some("KDC_ERR_NONE");
    }
    let mut errors = Error::ALL.into_iter();
    errors.find(|error| u32::from(error.number()) == number).map(Error::name)
}

/// Where a name that is part of the request lies, and its length; zeros where there is none.
fn place(request: &[u8], name: Option<&[u8]>) -> [u64; 2] {
    name.map_or([0, 0], |name| {
        let at = name.as_ptr().addr() - request.as_ptr().addr();
        [at as u64, name.len() as u64]
    })
}

/// The numbers of a request that was read from these bytes.
fn fields_of(bytes: &[u8], request: &Request) -> RequestFields {
    let (kind, tgt, evidence, user, service) = match request.kind {
        Kind::Initial { user } => (1, 0, 0, Some(user), None),
        Kind::Direct { tgt, service } => (2, tgt.number, 0, None, Some(service)),
        Kind::S4U2self { tgt, user } => (3, tgt.number, 0, Some(user), None),
        Kind::S4U2proxy { tgt, evidence, service } => {
            (4, tgt.number, evidence.number, None, Some(service))
        }
    };
    let Request { options, pac_options, till, .. } = *request;
    let [user_at, user_length] = place(bytes, user);
    let [service_at, service_length] = place(bytes, service);
    [
        kind,
        options.into(),
        pac_options.into(),
        till.into(),
        tgt.into(),
        evidence.into(),
        user_at,
        user_length,
        service_at,
        service_length,
    ]
}

/// `tickets_read_request`.
pub fn read_request(request: &[u8], fields: &mut RequestFields) -> u32 {
    error_of(read(request).map(|read| *fields = fields_of(request, &read)))
}

#[cfg(test)]
mod tests {
    use super::*;
    use crate::fixtures::{kind_1, kind_3, kind_4, Day};
    use crate::limits::LONGEST_RECORD;
    use crate::samples::TICKET_2;

    #[test]
    fn r11_8_names_found() {
        let mut day = Day::morning();
        let found = |day: &Day, names: &[&[u8]]| -> Vec<u32> {
            names.iter().map(|name| find_name(&day.service, name)).collect()
        };
        assert_eq!(found(&day, &[b"tech", b"web", b"store", b"WEB", b"wEb"]), [0, 1, 2, 1, 1]);
        assert_eq!(found(&day, &[b"we", b"webs", b"web\0", b"\0web", b""]), [NO_ACCOUNT; 5]);
        assert_eq!(found(&day, &[b"wdb", b"xeb", b"wea"]), [NO_ACCOUNT; 3]);
        day.set_flags(1, 13);
        assert_eq!(found(&day, &[b"web"]), [1]);
    }

    #[test]
    fn r11_8_names_that_differ_in_the_last_byte_alone() {
        for length in [1, 7, 8, 9, 24] {
            let mut day = Day::on(Service::fresh());
            let name = |last: char| "x".repeat(length - 1) + &last.to_string();
            for (number, last) in (0..).zip('a'..='z') {
                day.set(number, &name(last), 0, 0, 0);
            }
            for (number, last) in (0..).zip('a'..='z') {
                let name = name(last);
                assert_eq!(find_name(&day.service, name.as_bytes()), number);
                assert_eq!(find_name(&day.service, name.to_uppercase().as_bytes()), number);
            }
            assert_eq!(find_name(&day.service, name('1').as_bytes()), NO_ACCOUNT);
        }
    }

    /// R11.3: the service after W4.
    fn after_w4() -> Service {
        let mut day = Day::morning();
        let tgt = day.grant(&kind_1("web"), 1000);
        let evidence = day.grant(&kind_3(&tgt, "tech"), 1010);
        let w3 = kind_4(&tgt, &evidence, "store");
        day.grant(&w3, 1020);
        assert_eq!(day.ask(&w3, 37_000), Err(32));
        day.service
    }

    #[test]
    fn r11_10_tickets_are_read_back() {
        let service = after_w4();
        let mut output = [0xEE; LONGEST_RECORD + 1];
        assert_eq!(held(&service), 3);
        assert_eq!(record_at(&service, 2, &mut output), Answer { error: 0, value: 24 });
        assert_eq!((&output[..24], &output[24..]), (TICKET_2, &[0xEE; 8][..]));
        let mut fields = [7; 19];
        assert_eq!(ticket_at(&service, 2, &mut fields), 0);
        let numbers = [2, 0x4000_0000, 0, 2, 1020, 37_000, 0, 1, 1, 0, 4];
        assert_eq!((&fields[..11], &fields[11..]), (&numbers[..], &[1, 0, 0, 0, 0, 0, 0, 0][..]));
        for place in [3, 512, 65_536, 1 << 31, u32::MAX] {
            assert_eq!(ticket_at(&service, place, &mut [0; 19]), 41);
            assert_eq!(record_at(&service, place, &mut []), Answer { error: 41, value: 0 });
        }
        assert_eq!(record_at(&service, 0, &mut output[..30]), Answer { error: 52, value: 0 });
    }

    #[test]
    fn r7_7_a_foreign_ticket_is_read_in_numbers_and_has_no_record() {
        let mut service = after_w4();
        let trail = [9, 8, 7, 6, 5, 4, 3, 2];
        service.ledger[0].service = 3;
        service.ledger[1] = Ticket { trail, hops: 2, barred: true, ..service.ledger[1] };
        service.ledger[2] = Ticket { trail, hops: 255, ..service.ledger[2] };
        let mut fields = [7; 19];
        assert_eq!((ticket_at(&service, 0, &mut fields), fields[3], fields[10]), (0, 3, 1));
        assert_eq!((ticket_at(&service, 1, &mut fields), fields[8], fields[9]), (0, 2, 1));
        assert_eq!((&fields[6..8], &fields[10..]), (&[0, 0][..], &[3, 9, 8, 7, 6, 5, 4, 3, 2][..]));
        assert_eq!((ticket_at(&service, 2, &mut fields), fields[8], fields[18]), (0, 255, 2));
        for place in 0..3 {
            let mut output = [0xEE; LONGEST_RECORD];
            assert_eq!(record_at(&service, place, &mut output), Answer { error: 60, value: 0 });
            assert_eq!(record_at(&service, place, &mut []), Answer { error: 60, value: 0 });
            assert_eq!(output, [0xEE; LONGEST_RECORD]);
        }
    }

    #[test]
    fn r11_10_accounts_are_read_back() {
        let service = after_w4();
        let (mut fields, mut name) = ([7; 6], [7; 24]);
        assert_eq!(account(&service, 1, &mut fields, &mut name), 0);
        assert_eq!(fields, [1, 12, 4, 0, 36_000, 3]);
        assert_eq!(name, *b"web\0\0\0\0\0\0\0\0\0\0\0\0\0\0\0\0\0\0\0\0\0");
        assert_eq!(account(&service, 3, &mut fields, &mut name), 0);
        assert_eq!((fields, name), ([0, 1, 0, 0, 0, 0], [0; 24]));
        (fields, name) = ([7; 6], [7; 24]);
        for number in [64, 65, 255, 256, 257, 1 << 16, 1 << 31, u32::MAX] {
            assert_eq!(account(&service, number, &mut fields, &mut name), 60);
        }
        assert_eq!((fields, name), ([7; 6], [7; 24]));
    }

    #[test]
    fn r2_13_of_stored_flags_the_four_are_given() {
        let mut service = after_w4();
        service.table.rows[1].as_mut().unwrap().flags = 0xFB;
        let mut fields = [7; 6];
        assert_eq!((account(&service, 1, &mut fields, &mut [0; 24]), fields[1]), (0, 11));
    }

    #[test]
    fn r6_8_the_names_of_errors() {
        assert_eq!(error_name(13), Some("KDC_ERR_BADOPTION"));
        assert_eq!((error_name(0), error_name(5)), (Some("KDC_ERR_NONE"), None));
        assert_eq!((0..300).filter(|&number| error_name(number).is_some()).count(), 17);
    }

    #[test]
    fn r2_12_words_are_answered_by_1_and_0() {
        assert_eq!([words_match(0x41, 0x61), words_match(0x40, 0x60)], [1, 0]);
    }
}
