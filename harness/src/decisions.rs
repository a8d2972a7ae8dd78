//! The four decisions (R5.1 to R5.10) and the checks of a request in their order (R6.1 to R6.7).

use crate::accounts::Table;
use crate::limits::{
    CLOCK_SKEW, LAST_NUMBER, LAST_SECOND, LONGEST_RECORD, TICKET_LIMIT, TRAIL_LIMIT,
};
use crate::record::{Error, Kind, Origin, Principal, Request, Ticket, NO_TRAIL};

/// R3.4: the flags of a ticket. FORWARDABLE is an option of a request too.
pub const FORWARDABLE: u32 = 0x4000_0000;
pub const INITIAL: u32 = 0x0040_0000;

/// R4.4: an option of a request, and one of its PAC options.
pub const CNAME_IN_ADDL_TKT: u32 = 0x0002_0000;
pub const RESOURCE_BASED: u32 = 0x1000_0000;

/// What a decision looks at besides its request.
#[derive(Clone, Copy, Debug)]
pub struct Moment<'a> {
    pub table: &'a Table,
    /// The first ticket that the ledger holds under the presented TGT's number.
    pub first_tgt: Option<&'a Ticket>,
    /// The same for the presented evidence.
    pub first_evidence: Option<&'a Ticket>,
    /// The clock reading.
    pub clock: u32,
    /// How many tickets the ledger holds.
    pub count: usize,
    /// The next number.
    pub next: u64,
    /// The output's length.
    pub room: usize,
}

impl Moment<'_> {
    /// R5.10: the number of a new ticket; where the next number does not fit, 29 refuses it.
    fn number(&self) -> u16 {
        self.next as u16
    }

    /// R6.7: whether a place and a number are left.
    fn has_room(&self) -> bool {
        self.count < TICKET_LIMIT && self.next <= LAST_NUMBER.into()
    }
}

/// R4.4: whether the request has the option FORWARDABLE.
fn asks_forwardable(request: &Request) -> bool {
    request.options & FORWARDABLE != 0
}

/// R4.4: whether the request has the option CNAME-IN-ADDL-TKT.
pub fn has_cname_in_addl_tkt(request: &Request) -> bool {
    request.options & CNAME_IN_ADDL_TKT != 0
}

/// R4.4: whether these PAC options have resource-based.
fn is_resource_based(pac_options: u32) -> bool {
    pac_options & RESOURCE_BASED != 0
}

/// R3.4: whether a ticket has the flag FORWARDABLE.
pub fn is_forwardable(ticket: &Ticket) -> bool {
    ticket.flags & FORWARDABLE != 0
}

/// The flag FORWARDABLE, or none.
fn forwardable_if(stands: bool) -> u32 {
    if stands {
        FORWARDABLE
    } else {
        0
    }
}

/// The error, unless the condition holds.
fn ensure(condition: bool, error: Error) -> Result<(), Error> {
    if condition {
        Ok(())
    } else {
        Err(error)
    }
}

/// R5.1: 41 unless a presented ticket is, field for field, the first that the ledger holds under its
/// number.
fn check_held(presented: &Ticket, first: Option<&Ticket>) -> Result<(), Error> {
    ensure(first == Some(presented), Error::Modified)
}

/// R5.2: whether the ticket starts too far ahead of the clock. The sum has no ceiling: it may be past
/// the last second.
pub fn is_too_early(ticket: &Ticket, clock: u32) -> bool {
    u64::from(ticket.start) > u64::from(clock) + u64::from(CLOCK_SKEW)
}

/// R5.2: whether the clock has reached the ticket's end, for which there is no allowance.
pub fn has_ended(ticket: &Ticket, clock: u32) -> bool {
    clock >= ticket.end
}

/// R5.2: 33 while the ticket's start is too far ahead, 32 from its end on.
fn check_valid(ticket: &Ticket, clock: u32) -> Result<(), Error> {
    ensure(!is_too_early(ticket, clock), Error::TktNyv)?;
    ensure(!has_ended(ticket, clock), Error::TktExpired)
}

/// 18 unless the client is enabled.
fn check_enabled(table: &Table, client: Principal) -> Result<(), Error> {
    ensure(table.is_enabled(client), Error::ClientRevoked)
}

/// R6.3: the checks of a TGT.
fn check_tgt(tgt: &Ticket, moment: &Moment) -> Result<(), Error> {
    check_held(tgt, moment.first_tgt)?;
    ensure(tgt.origin == Origin::Initial, Error::NotUs)?;
    check_valid(tgt, moment.clock)?;
    check_enabled(moment.table, tgt.client)
}

/// R6.4: the checks of evidence.
fn check_evidence(evidence: &Ticket, service_1: Principal, moment: &Moment) -> Result<(), Error> {
    check_held(evidence, moment.first_evidence)?;
    check_valid(evidence, moment.clock)?;
    let has_service = evidence.origin != Origin::Initial;
    ensure(has_service && evidence.service == service_1, Error::ServerNoMatch)?;
    check_enabled(moment.table, evidence.client)
}

/// R6.5: the account of a named service, which has to be enabled and a service: 7.
fn named_service(table: &Table, name: &[u8]) -> Result<Principal, Error> {
    table
        .find_name(name)
        .filter(|&service| table.is_enabled(service) && table.is_service(service))
        .ok_or(Error::SPrincipalUnknown)
}

/// R6.5: the account of a named user: 6 if there is none, 18 if it is disabled.
fn named_user(table: &Table, name: &[u8]) -> Result<Principal, Error> {
    let user = table.find_name(name).ok_or(Error::CPrincipalUnknown)?;
    check_enabled(table, user)?;
    Ok(user)
}

/// R5.7: whether the classic route holds.
pub fn classic_route(
    table: &Table,
    service_1: Principal,
    service_2: Principal,
    evidence: &Ticket,
) -> bool {
    table.sends_to(service_1, service_2) && is_forwardable(evidence)
}

/// R5.7: whether the resource route holds.
pub fn resource_route(
    table: &Table,
    service_1: Principal,
    service_2: Principal,
    pac_options: u32,
    evidence: &Ticket,
) -> bool {
    is_resource_based(pac_options) && table.receives_from(service_2, service_1) && !evidence.barred
}

/// R5.9: the end of a new ticket that rests on these. Till 0 is no wish (R4.5).
fn end(request: &Request, clock: u32, lifetime: u32, rests_on: &[&Ticket]) -> u32 {
    let wish = if request.till == 0 { LAST_SECOND } else { request.till };
    let own = clock.saturating_add(lifetime).min(wish);
    rests_on.iter().fold(own, |least, ticket| least.min(ticket.end))
}

/// R5.4: kind 1, initial.
fn initial(request: &Request, user: &[u8], moment: &Moment) -> Result<Ticket, Error> {
    let Moment { table, clock, .. } = *moment;
    let client = named_user(table, user)?;
    let barred = table.is_barred(client);
    Ok(Ticket {
        number: moment.number(),
        flags: INITIAL | forwardable_if(asks_forwardable(request) && !barred),
        client,
        service: 0,
        start: clock,
        end: end(request, clock, table.lifetime(client), &[]),
        origin: Origin::Initial,
        trail: NO_TRAIL,
        hops: 0,
        barred,
    })
}

/// R5.5: kind 2, direct.
fn direct(
    request: &Request,
    tgt: &Ticket,
    service: &[u8],
    moment: &Moment,
) -> Result<Ticket, Error> {
    let Moment { table, clock, .. } = *moment;
    check_tgt(tgt, moment)?;
    let service = named_service(table, service)?;
    let barred = tgt.barred || table.is_barred(tgt.client);
    Ok(Ticket {
        number: moment.number(),
        flags: forwardable_if(asks_forwardable(request) && is_forwardable(tgt) && !barred),
        client: tgt.client,
        service,
        start: clock,
        end: end(request, clock, table.lifetime(service), &[tgt]),
        origin: Origin::Direct { tgt: tgt.number },
        trail: NO_TRAIL,
        hops: 0,
        barred,
    })
}

/// R5.6: whether kind 3 gives FORWARDABLE where there is no mark.
fn s4u2self_forwardable(request: &Request, tgt: &Ticket, table: &Table) -> bool {
    let service_1 = tgt.client;
    table.is_trusted(service_1)
        || table.sends_to_none(service_1) && asks_forwardable(request) && is_forwardable(tgt)
}

/// R5.6: kind 3, S4U2self.
fn s4u2self(
    request: &Request,
    tgt: &Ticket,
    user: &[u8],
    moment: &Moment,
) -> Result<Ticket, Error> {
    let Moment { table, clock, .. } = *moment;
    check_tgt(tgt, moment)?;
    let service_1 = tgt.client;
    ensure(table.is_service(service_1), Error::SPrincipalUnknown)?;
    let client = named_user(table, user)?;
    let barred = table.is_barred(client);
    Ok(Ticket {
        number: moment.number(),
        flags: forwardable_if(!barred && s4u2self_forwardable(request, tgt, table)),
        client,
        service: service_1,
        start: clock,
        end: end(request, clock, table.lifetime(service_1), &[tgt]),
        origin: Origin::S4U2self { tgt: tgt.number },
        trail: NO_TRAIL,
        hops: 0,
        barred,
    })
}

/// R6.6: the checks of a hop: 13 unless its option stands, the evidence's client is not barred and a
/// route holds (R5.7); 61 where the trail cannot grow.
fn check_hop(
    request: &Request,
    table: &Table,
    service_1: Principal,
    service_2: Principal,
    evidence: &Ticket,
) -> Result<(), Error> {
    let route = classic_route(table, service_1, service_2, evidence)
        || resource_route(table, service_1, service_2, request.pac_options, evidence);
    let barred = table.is_barred(evidence.client);
    ensure(has_cname_in_addl_tkt(request) && !barred && route, Error::BadOption)?;
    ensure(usize::from(evidence.hops) < TRAIL_LIMIT, Error::FieldTooLong)
}

/// R5.8: kind 4, S4U2proxy.
fn s4u2proxy(
    request: &Request,
    tgt: &Ticket,
    evidence: &Ticket,
    service: &[u8],
    moment: &Moment,
) -> Result<Ticket, Error> {
    let Moment { table, clock, .. } = *moment;
    let service_1 = tgt.client;
    check_tgt(tgt, moment)?;
    check_evidence(evidence, service_1, moment)?;
    let service_2 = named_service(table, service)?;
    check_hop(request, table, service_1, service_2, evidence)?;
    let mut trail = evidence.trail;
    trail[usize::from(evidence.hops)] = service_1;
    Ok(Ticket {
        number: moment.number(),
        flags: evidence.flags & FORWARDABLE,
        client: evidence.client,
        service: service_2,
        start: clock,
        end: end(request, clock, table.lifetime(service_2), &[tgt, evidence]),
        origin: Origin::Delegated { tgt: tgt.number, evidence: evidence.number },
        trail,
        hops: evidence.hops + 1,
        barred: evidence.barred,
    })
}

/// R6.2: the ticket that a readable request gets, or the number of the first check that fails: the
/// output's 52, those of its kind, and the last ones (R6.7), 11 and 29.
pub fn decide(request: &Request, moment: &Moment) -> Result<Ticket, Error> {
    ensure(moment.room >= LONGEST_RECORD, Error::ResponseTooBig)?;
    let ticket = match &request.kind {
        Kind::Initial { user } => initial(request, user, moment),
        Kind::Direct { tgt, service } => direct(request, tgt, service, moment),
        Kind::S4U2self { tgt, user } => s4u2self(request, tgt, user, moment),
        Kind::S4U2proxy { tgt, evidence, service } => {
            s4u2proxy(request, tgt, evidence, service, moment)
        }
    }?;
    ensure(ticket.end > moment.clock, Error::NeverValid)?;
    ensure(moment.has_room(), Error::SvcUnavailable)?;
    Ok(ticket)
}

#[cfg(test)]
mod tests {
    use super::*;
    use crate::book;
    use crate::fixtures::{edit, kind_1, kind_2, kind_3, kind_4, Asked, Day, LIFETIME};
    use crate::limits::ACCOUNT_LIMIT;

    /// The flags and the mark of a ticket.
    fn marks(ticket: Ticket) -> (u32, bool) {
        (ticket.flags, ticket.barred)
    }

    /// The morning with `web`'s TGT at 1000 and the S4U2self ticket for `tech` at 1010.
    fn two_tickets() -> (Day, Ticket, Ticket) {
        let mut day = Day::morning();
        let tgt = day.grant(&kind_1("web"), 1000);
        let evidence = day.grant(&kind_3(&tgt, "tech"), 1010);
        (day, tgt, evidence)
    }

    /// A day on which `web` may hop to itself, and the tickets of eight such hops.
    fn eight_hops() -> (Day, Ticket, Ticket) {
        let (mut day, tgt, mut evidence) = two_tickets();
        day.set(1, "web", 12, 0x6, 0);
        for hops in 1..=TRAIL_LIMIT {
            evidence = day.grant(&kind_4(&tgt, &evidence, "web"), 1010);
            let mut trail = NO_TRAIL;
            trail[..hops].fill(1);
            assert_eq!((usize::from(evidence.hops), evidence.trail), (hops, trail));
        }
        (day, tgt, evidence)
    }

    #[test]
    fn r6_8_the_examples_of_the_error_table() {
        let (mut day, tgt, evidence) = two_tickets();
        let altered = Ticket { client: 0, ..tgt };
        for (request, clock, number) in [
            (kind_1("ghost"), 1000, 6),
            (kind_2(&tgt, "tech"), 1010, 7),
            (kind_1("tech").till(1000), 1000, 11),
            (kind_4(&tgt, &evidence, "web"), 1010, 13),
            (kind_4(&tgt, &tgt, "store"), 1010, 26),
            (kind_2(&tgt, "store"), 37000, 32),
            (kind_2(&tgt, "store"), 699, 33),
            (kind_2(&evidence, "store"), 1010, 35),
            (kind_2(&altered, "store"), 1010, 41),
        ] {
            assert_eq!(day.ask(&request, clock), Err(number), "{request:?}");
        }
        assert_eq!(day.ask_bytes(b"\0", 1010), Err(60));
        assert_eq!(day.service.edit(&edit(3, "WEB", 0, 0, 0)), Err(Error::PrincipalNotUnique));
        assert_eq!(day.service.edit(&edit(1, "www", 0, 0, 0)), Err(Error::Policy));
        day.set(0, "tech", 1, 0, 0);
        assert_eq!(day.ask(&kind_1("tech"), 1000), Err(18));
    }

    #[test]
    fn r6_6_the_eighth_hop_is_granted_and_the_ninth_is_61() {
        let (mut day, tgt, eighth) = eight_hops();
        assert_eq!(day.ask(&kind_4(&tgt, &eighth, "web"), 1010), Err(61));
        assert_eq!(day.service.descent(eighth.number.into()), Ok(9));
    }

    #[test]
    fn r6_6_61_wants_a_route_first_and_comes_before_11() {
        let (mut day, tgt, eighth) = eight_hops();
        let hop = kind_4(&tgt, &eighth, "web");
        assert_eq!(day.ask(&hop.clone().till(5), 1010), Err(61));
        assert_eq!(day.ask(&hop.clone().options(0), 1010), Err(13));
        assert_eq!(day.ask(&hop.pac_options(RESOURCE_BASED), 1010), Err(61));
        day.set(1, "web", 12, 0x4, 0);
        assert_eq!(day.ask(&kind_4(&tgt, &eighth, "web"), 1010), Err(13));
        assert_eq!(day.ask(&kind_4(&tgt, &eighth, "store"), 1010), Err(61));
    }

    /// R11.2: the answers of H1 to H8, each with what it hangs on: Service 2 in the send set, Service 1
    /// in the receive set, resource-based, and the evidence's FORWARDABLE and mark.
    const HOPS: [(u8, [bool; 5]); 8] = {
        const Y: bool = true;
        const N: bool = false;
        [
            (0, [Y, N, N, Y, N]),
            (13, [Y, N, N, N, N]),
            (13, [N, Y, N, Y, N]),
            (0, [N, Y, Y, Y, N]),
            (0, [N, Y, Y, N, N]),
            (13, [N, Y, Y, N, Y]),
            (0, [Y, N, Y, Y, N]),
            (13, [Y, N, Y, N, N]),
        ]
    };

    /// How evidence of `tech` for `web` is come by, with `web`'s TGT and the option FORWARDABLE or none.
    type Evidence = fn(&mut Day, &Ticket, u32) -> Ticket;

    /// A direct ticket.
    fn direct_evidence(day: &mut Day, _: &Ticket, asked: u32) -> Ticket {
        let client = day.grant(&kind_1("tech").options(asked), 1000);
        day.grant(&kind_2(&client, "web").options(asked), 1000)
    }

    /// An S4U2self ticket.
    fn self_evidence(day: &mut Day, tgt: &Ticket, _: u32) -> Ticket {
        day.grant(&kind_3(tgt, "tech"), 1000)
    }

    /// The error number of a request, 0 for a grant.
    fn error(day: &mut Day, request: &Asked, clock: u32) -> u8 {
        day.ask(request, clock).err().unwrap_or(0)
    }

    /// R11.2: the error number of a hop that hangs on these, 0 for a grant. `tech` has these flags when
    /// it is asked for; a mark comes of a bar when the evidence was.
    fn hop(hangs_on: [bool; 5], evidence: Evidence, flags: u32) -> u8 {
        let [send, receive, resource, forwardable, mark] = hangs_on;
        let mut day = Day::morning();
        day.set_flags(0, if mark { 2 } else { 0 });
        day.set(1, "web", if forwardable { 12 } else { 8 }, if send { 0x4 } else { 0 }, 0);
        day.set(2, "store", 8, 0, if receive { 0x2 } else { 0 });
        let tgt = day.grant(&kind_1("web"), 1000);
        let evidence = evidence(&mut day, &tgt, forwardable_if(forwardable));
        assert_eq!((is_forwardable(&evidence), evidence.barred), (forwardable, mark));
        day.set_flags(0, flags);
        let request = kind_4(&tgt, &evidence, "store");
        let hop =
            day.ask(&if resource { request.pac_options(RESOURCE_BASED) } else { request }, 1000);
        if let Ok(ticket) = hop {
            assert_eq!(marks(ticket), marks(evidence));
            assert_eq!((ticket.client, ticket.service, ticket.hops), (0, 2, 1));
        }
        hop.err().unwrap_or(0)
    }

    #[test]
    fn r11_2_the_hops_h1_to_h8() {
        for (line, (answer, hangs_on)) in (1..).zip(HOPS) {
            for evidence in [direct_evidence, self_evidence] {
                // The flags of a client who is neither disabled nor barred.
                for flags in [0, 4, 8, 12] {
                    assert_eq!(hop(hangs_on, evidence, flags), answer, "H{line}, flags {flags}");
                }
            }
        }
    }

    #[test]
    fn r11_2_h1_to_h8_with_a_barred_client_are_13() {
        for (line, (_, hangs_on)) in (1..).zip(HOPS) {
            for evidence in [direct_evidence, self_evidence] {
                for flags in [2, 6, 10, 14] {
                    assert_eq!(hop(hangs_on, evidence, flags), 13, "H{line}, flags {flags}");
                    assert_eq!(hop(hangs_on, evidence, flags | 1), 18, "H{line}, disabled too");
                }
            }
        }
    }

    /// R5.7: the send set of `web` and the receive set of `store` where the classic route alone is open,
    /// the resource route alone, and both.
    const OPEN: [(u64, u64); 3] = [(0x4, 0), (0, 0x2), (0x4, 0x2)];

    /// The day of the morning's two tickets with these sets, and the hop on them.
    fn open_hop((send, receive): (u64, u64)) -> (Day, Asked) {
        let (mut day, tgt, evidence) = two_tickets();
        day.set(1, "web", 12, send, 0);
        day.set(2, "store", 8, 0, receive);
        (day, kind_4(&tgt, &evidence, "store").pac_options(RESOURCE_BASED))
    }

    #[test]
    fn r5_7_a_bar_counts_on_either_route_until_it_is_lifted() {
        for sets in OPEN {
            let (mut day, hop) = open_hop(sets);
            let answers = [0, 2, 0, 2, 8, 10].map(|flags| {
                day.set_flags(0, flags);
                error(&mut day, &hop, 1020)
            });
            assert_eq!(answers, [0, 13, 0, 13, 0, 13], "{sets:?}");
        }
    }

    #[test]
    fn r5_7_a_bar_counts_whatever_the_evidence_says() {
        let (mut day, tgt, evidence) = two_tickets();
        day.set(2, "store", 8, 0, 0x2);
        // Evidence with the mark and FORWARDABLE stands in foreign states only.
        for (number, flags, mark) in
            [(70, FORWARDABLE, true), (71, u32::MAX, false), (72, 0, false)]
        {
            let evidence = Ticket { number, flags, barred: mark, ..evidence };
            day.service.ledger.push(evidence);
            let hop = kind_4(&tgt, &evidence, "store").pac_options(RESOURCE_BASED);
            day.set_flags(0, 0);
            assert_eq!(error(&mut day, &hop, 1020), 0);
            day.set_flags(0, 2);
            assert_eq!(error(&mut day, &hop, 1020), 13);
        }
    }

    #[test]
    fn r5_7_the_bar_is_asked_of_each_hop() {
        let (mut day, tgt, evidence) = two_tickets();
        day.set(1, "web", 12, 0x6, 0);
        let second = day.grant(&kind_4(&tgt, &evidence, "web"), 1020);
        let third = day.grant(&kind_4(&tgt, &second, "web"), 1020);
        for (flags, answer) in [(2, 13), (0, 0), (3, 18)] {
            day.set_flags(0, flags);
            for evidence in [evidence, second, third] {
                assert_eq!(error(&mut day, &kind_4(&tgt, &evidence, "store"), 1020), answer);
            }
        }
    }

    #[test]
    fn r5_8_a_bar_of_service_1_or_service_2_has_no_effect() {
        for sets in OPEN {
            let (mut day, hop) = open_hop(sets);
            let expected = day.grant(&hop, 1020);
            for (web, store) in [(14, 8), (12, 10), (14, 10)] {
                day.set_flags(1, web);
                day.set_flags(2, store);
                let ticket = day.grant(&hop, 1020);
                assert_eq!(Ticket { number: expected.number, ..ticket }, expected);
            }
            day.set_flags(0, 2);
            assert_eq!(day.ask(&hop, 1020), Err(13));
        }
    }

    #[test]
    fn r5_8_a_bar_of_service_1_or_service_2_counts_where_it_is_the_client() {
        for sets in OPEN {
            let (mut day, _) = open_hop(sets);
            let tgt = day.grant(&kind_1("web"), 1010);
            let hops = ["web", "store"].map(|user| {
                let evidence = day.grant(&kind_3(&tgt, user), 1010);
                kind_4(&tgt, &evidence, "store").pac_options(RESOURCE_BASED)
            });
            for (web, store, answers) in
                [(12, 8, [0, 0]), (14, 8, [13, 0]), (12, 10, [0, 13]), (14, 10, [13, 13])]
            {
                day.set_flags(1, web);
                day.set_flags(2, store);
                assert_eq!(hops.each_ref().map(|hop| error(&mut day, hop, 1020)), answers);
            }
        }
    }

    #[test]
    fn r6_2_the_bar_comes_after_the_evidence_and_7() {
        let (mut day, tgt, evidence) = two_tickets();
        let other = day.grant(&kind_4(&tgt, &evidence, "store"), 1020);
        let altered = Ticket { client: 1, ..evidence };
        day.set_flags(0, 2);
        for (evidence, service, clock, answer) in [
            (altered, "store", 1020, 41),
            (evidence, "store", 709, 33),
            (evidence, "store", 37000, 32),
            (other, "store", 1020, 26),
            (evidence, "ghost", 1020, 7),
            (evidence, "tech", 1020, 7),
            (evidence, "store", 1020, 13),
        ] {
            assert_eq!(error(&mut day, &kind_4(&tgt, &evidence, service), clock), answer);
        }
        day.set_flags(2, 9);
        assert_eq!(day.ask(&kind_4(&tgt, &evidence, "store"), 1020), Err(7));
    }

    #[test]
    fn r6_2_the_bar_comes_before_61_11_and_29() {
        let (mut day, tgt, eighth) = eight_hops();
        let hop = |evidence: &Ticket| kind_4(&tgt, evidence, "web");
        let first = day.service.ledger[1];
        let answers = |day: &mut Day| {
            [hop(&eighth), hop(&first).till(1020), hop(&first)].map(|hop| error(day, &hop, 1020))
        };
        day.service.next = u64::from(LAST_NUMBER) + 1;
        assert_eq!(answers(&mut day), [61, 11, 29]);
        day.set_flags(0, 2);
        assert_eq!(answers(&mut day), [13, 13, 13]);
    }

    #[test]
    fn r5_4_kinds_1_to_3_are_granted_whoever_is_barred() {
        let (mut day, tgt, _) = two_tickets();
        let client = day.grant(&kind_1("tech"), 1010);
        day.set_flags(0, 2);
        day.set_flags(1, 14);
        for request in [
            kind_1("tech"),
            kind_1("web"),
            kind_2(&client, "web"),
            kind_2(&tgt, "store"),
            kind_3(&tgt, "tech"),
            kind_3(&tgt, "web"),
        ] {
            assert!(day.grant(&request, 1020).barred, "{request:?}");
        }
    }

    #[test]
    fn r6_3_the_order_of_the_tgt_checks() {
        let (mut day, tgt, evidence) = two_tickets();
        // An S4U2self ticket with the flag INITIAL, and an initial ticket without it.
        let odd = Ticket { number: 70, flags: INITIAL, ..evidence };
        let plain = Ticket { number: 71, flags: 0, ..tgt };
        day.service.ledger.extend([odd, plain]);
        assert_eq!(day.ask(&kind_2(&odd, "store"), 1010), Err(35));
        assert!(day.ask(&kind_2(&plain, "store"), 1010).is_ok());
        let altered = Ticket { client: 2, ..evidence };
        assert_eq!(day.ask(&kind_2(&altered, "store"), 1010), Err(41));
        assert_eq!(day.ask(&kind_4(&evidence, &altered, "store"), 1010), Err(35));
        assert_eq!(day.ask(&kind_4(&tgt, &altered, "store"), 699), Err(33));
        assert_eq!(day.ask(&kind_4(&tgt, &altered, "store"), 700), Err(41));
        assert_eq!(day.ask(&kind_2(&evidence, "store"), 0), Err(35));
        day.set(1, "web", 13, 0x4, 0);
        assert_eq!(day.ask(&kind_2(&tgt, "ghost"), 37000), Err(32));
        assert_eq!(day.ask(&kind_2(&tgt, "ghost"), 1010), Err(18));
        assert_eq!(day.ask(&kind_4(&tgt, &altered, "store"), 1010), Err(18));
    }

    #[test]
    fn r5_2_33_comes_before_32() {
        let (mut day, tgt, evidence) = two_tickets();
        let odd_tgt = Ticket { number: 70, start: 3000, end: 2000, ..tgt };
        let odd_evidence = Ticket { number: 71, start: 3000, end: 2000, ..evidence };
        day.service.ledger.extend([odd_tgt, odd_evidence]);
        // The end is reached from 2000 on, and the start is too far ahead up to 2699.
        for (clock, number) in
            [(1999, 33), (2000, 33), (2500, 33), (2699, 33), (2700, 32), (2999, 32), (3000, 32)]
        {
            assert_eq!(day.ask(&kind_2(&odd_tgt, "store"), clock), Err(number));
            assert_eq!(day.ask(&kind_4(&tgt, &odd_evidence, "store"), clock), Err(number));
        }
    }

    /// The error number of a request at each of these clock readings, 0 for a grant.
    fn errors<const N: usize>(day: &mut Day, request: &Asked, clocks: [u32; N]) -> [u8; N] {
        clocks.map(|clock| error(day, request, clock))
    }

    #[test]
    fn r5_2_a_tgt_passes_from_300_seconds_before_its_start() {
        let (mut day, tgt, _) = two_tickets();
        let clocks = [0, 698, 699, 700, 701, 999, 1000, 36999, 37000, 37300];
        for request in [kind_2(&tgt, "store"), kind_3(&tgt, "tech")] {
            assert_eq!(errors(&mut day, &request, clocks), [33, 33, 33, 0, 0, 0, 0, 0, 32, 32]);
        }
    }

    #[test]
    fn r5_2_evidence_passes_from_300_seconds_before_its_start() {
        let (mut day, tgt, evidence) = two_tickets();
        let clocks = [699, 700, 709, 710, 999, 1009, 1010, 36999, 37000];
        let hop = kind_4(&tgt, &evidence, "store");
        assert_eq!(errors(&mut day, &hop, clocks), [33, 33, 33, 0, 0, 0, 0, 0, 32]);
        // At 700 the TGT passes, and 33 is for the evidence.
        let altered = Ticket { client: 2, ..evidence };
        let hop = kind_4(&tgt, &altered, "store");
        assert_eq!(errors(&mut day, &hop, [699, 700, 709, 710]), [33, 41, 41, 41]);
        // Evidence that starts earlier than the TGT does not help the TGT.
        let early = day.grant(&kind_3(&tgt, "tech"), 700);
        let hop = kind_4(&tgt, &early, "store");
        assert_eq!(errors(&mut day, &hop, [399, 400, 699, 700]), [33, 33, 33, 0]);
    }

    #[test]
    fn r5_2_the_sum_has_no_ceiling() {
        let (mut day, tgt, evidence) = two_tickets();
        let long = Ticket { number: 70, start: 0, end: LAST_SECOND, ..tgt };
        let last_tgt = Ticket { number: 71, start: LAST_SECOND, ..long };
        let last = Ticket { number: 72, start: LAST_SECOND, end: LAST_SECOND, ..evidence };
        let open = Ticket { number: 73, start: 0, ..last };
        day.service.ledger.extend([long, last_tgt, last, open]);
        // From 4294966996 on the sum does not fit 32 bits.
        let clocks = [4294966994, 4294966995, 4294966996, 4294967294, 4294967295];
        for request in [
            kind_2(&last_tgt, "store"),
            kind_3(&last_tgt, "tech"),
            kind_4(&last_tgt, &open, "store"),
            kind_4(&long, &last, "store"),
            kind_4(&last_tgt, &last, "store"),
        ] {
            assert_eq!(errors(&mut day, &request, clocks), [33, 0, 0, 0, 32], "{request:?}");
        }
        assert_eq!(errors(&mut day, &kind_4(&long, &open, "store"), clocks), [0, 0, 0, 0, 32]);
    }

    #[test]
    fn r5_2_starts_near_0_and_near_the_last_second() {
        let (mut day, tgt, _) = two_tickets();
        for (start, clock, error) in [
            (0, 0, 0),
            (300, 0, 0),
            (301, 0, 33),
            (301, 1, 0),
            (LAST_SECOND, 0, 33),
            (LAST_SECOND - 1, LAST_SECOND - 301, 0),
            (LAST_SECOND - 1, LAST_SECOND - 302, 33),
            (LAST_SECOND - 1, LAST_SECOND - 2, 0),
        ] {
            let odd = Ticket { number: 70, start, end: LAST_SECOND, ..tgt };
            day.service.ledger.truncate(2);
            day.service.ledger.push(odd);
            let answer = errors(&mut day, &kind_2(&odd, "store"), [clock]);
            assert_eq!(answer, [error], "start {start} at {clock}");
        }
    }

    #[test]
    fn r5_2_ends_gain_nothing() {
        let (mut day, tgt, evidence) = two_tickets();
        let short = day.grant(&kind_3(&tgt, "tech").till(1100), 1010);
        let clocks = [1099, 1100, 1101, 1400];
        assert_eq!(errors(&mut day, &kind_4(&tgt, &short, "store"), clocks), [0, 32, 32, 32]);
        let hop = kind_4(&tgt, &evidence, "store");
        for request in [kind_1("web"), kind_2(&tgt, "store"), kind_3(&tgt, "tech"), hop] {
            for (clock, till, error) in
                [(800, 500, 11), (800, 799, 11), (800, 800, 11), (800, 801, 0), (1020, 1020, 11)]
            {
                let answer = errors(&mut day, &request.clone().till(till), [clock]);
                assert_eq!(answer, [error], "till {till} at {clock}");
            }
        }
    }

    #[test]
    fn r5_9_tickets_that_start_before_what_they_rest_on() {
        let (mut day, tgt, later) = two_tickets();
        let direct = day.grant(&kind_2(&tgt, "store"), 700);
        let evidence = day.grant(&kind_3(&tgt, "tech"), 701);
        let hop = day.grant(&kind_4(&tgt, &evidence, "store"), 702);
        let other = day.grant(&kind_4(&tgt, &later, "store"), 710);
        let till = day.grant(&kind_2(&tgt, "store").till(950), 900);
        let times = [direct, evidence, hop, other, till].map(|ticket| (ticket.start, ticket.end));
        assert_eq!(times, [(700, 36700), (701, 36701), (702, 36701), (710, 36710), (900, 950)]);
        assert_eq!((hop.client, hop.service, hop.hops, hop.trail[0]), (0, 2, 1, 1));
        assert_eq!(book::lawful(&day.book.notes, 0), Ok(()));
        let descents = [0, 1, 2, 3, 4, 5, 6].map(|number| day.service.descent(number));
        assert_eq!(descents, [0, 1, 1, 1, 2, 2, 1].map(Ok));
        assert_eq!(day.service.day_total(), 36000 + 35990 + 36000 + 36000 + 35999 + 36000 + 50);
        assert_eq!([949, 950, 36700, 36701].map(|clock| day.clear(clock)), [0, 1, 1, 2]);
    }

    #[test]
    fn r6_4_the_order_of_the_evidence_and_name_checks() {
        let (mut day, tgt, evidence) = two_tickets();
        let short = day.grant(&kind_3(&tgt, "tech").till(1100), 1050);
        let other = day.grant(&kind_2(&tgt, "store").till(1100), 1050);
        assert_eq!(day.ask(&kind_4(&tgt, &other, "store"), 749), Err(33));
        assert_eq!(day.ask(&kind_4(&tgt, &other, "store"), 750), Err(26));
        assert_eq!(day.ask(&kind_4(&tgt, &other, "store"), 1100), Err(32));
        assert_eq!(day.ask(&kind_4(&tgt, &short, "store"), 1100), Err(32));
        day.set(0, "tech", 1, 0, 0);
        assert_eq!(day.ask(&kind_4(&tgt, &other, "ghost"), 1050), Err(26));
        assert_eq!(day.ask(&kind_4(&tgt, &evidence, "ghost"), 1050), Err(18));
        day.set(0, "tech", 0, 0, 0);
        assert_eq!(day.ask(&kind_4(&tgt, &evidence, "ghost").options(0), 1050), Err(7));
    }

    #[test]
    fn r6_5_unknown_and_disabled_names() {
        let (mut day, tgt, evidence) = two_tickets();
        assert_eq!(day.ask(&kind_1(""), 1010), Err(6));
        assert_eq!(day.ask(&kind_2(&tgt, ""), 1010), Err(7));
        assert_eq!(day.ask(&kind_3(&tgt, ""), 1010), Err(6));
        assert_eq!(day.ask(&kind_4(&tgt, &evidence, ""), 1010), Err(7));
        day.set(2, "store", 9, 0, 0);
        assert_eq!(day.ask(&kind_1("store"), 1010), Err(18));
        assert_eq!(day.ask(&kind_2(&tgt, "store"), 1010), Err(7));
        assert_eq!(day.ask(&kind_3(&tgt, "STORE"), 1010), Err(18));
        assert_eq!(day.ask(&kind_4(&tgt, &evidence, "store"), 1010), Err(7));
        assert_eq!(day.grant(&kind_3(&tgt, "TECH"), 1010).client, 0);
    }

    #[test]
    fn r6_4_one_record_as_tgt_and_evidence_is_26() {
        let (mut day, tgt, _) = two_tickets();
        assert_eq!(day.ask(&kind_4(&tgt, &tgt, "store"), 1010), Err(26));
        // Service 1 is account 0, the number that an initial ticket's value has as its service.
        let tgt = day.grant(&kind_1("tech").options(FORWARDABLE), 1010);
        day.set(0, "tech", 8, 0x4, 0);
        assert_eq!(day.ask(&kind_4(&tgt, &tgt, "store"), 1010), Err(26));
    }

    #[test]
    fn r6_5_flag_8_of_service_1() {
        let (mut day, tgt, evidence) = two_tickets();
        day.set(1, "web", 4, 0x4, 0);
        assert_eq!(day.ask(&kind_3(&tgt, "ghost"), 1010), Err(7));
        assert_eq!(day.ask(&kind_3(&tgt, "tech"), 1010), Err(7));
        assert_eq!(day.grant(&kind_4(&tgt, &evidence, "store"), 1010).client, 0);
        assert_eq!(day.grant(&kind_2(&tgt, "store"), 1010).client, 1);
    }

    #[test]
    fn r5_8_accounts_on_the_trail_are_not_checked() {
        let mut day = Day::morning();
        day.set(2, "store", 8, 0x2, 0);
        let web = day.grant(&kind_1("web"), 1000);
        let store = day.grant(&kind_1("store"), 1000);
        let first = day.grant(&kind_3(&web, "tech"), 1000);
        let second = day.grant(&kind_4(&web, &first, "store"), 1000);
        let third = day.grant(&kind_4(&store, &second, "web"), 1000);
        day.set(2, "store", 9, 0, 0);
        day.set(3, "next", 8, 0, 0x2);
        let fourth = kind_4(&web, &third, "next").pac_options(RESOURCE_BASED);
        assert_eq!(day.grant(&fourth, 1000).trail[..4], [1, 2, 1, 0]);
    }

    #[test]
    fn r2_4_numbers_above_63() {
        let (mut day, tgt, evidence) = two_tickets();
        let far_tgt = Ticket { number: 70, client: 64, ..tgt };
        let far_client = Ticket { number: 71, client: 255, ..evidence };
        let far_service = Ticket { number: 72, service: 65, ..evidence };
        let far_both = Ticket { number: 73, service: 64, ..evidence };
        day.service.ledger.extend([far_tgt, far_client, far_service, far_both]);
        assert_eq!(day.ask(&kind_2(&far_tgt, "store"), 1010), Err(18));
        assert_eq!(day.ask(&kind_4(&tgt, &far_client, "store"), 1010), Err(18));
        assert_eq!(day.ask(&kind_4(&tgt, &far_service, "store"), 1010), Err(26));
        assert_eq!(day.ask(&kind_4(&far_tgt, &far_both, "store"), 1010), Err(18));
    }

    #[test]
    fn r4_4_options_of_kind_4() {
        let (mut day, tgt, evidence) = two_tickets();
        let hop = kind_4(&tgt, &evidence, "store");
        for options in [0, !CNAME_IN_ADDL_TKT, FORWARDABLE] {
            assert_eq!(day.ask(&hop.clone().options(options), 1010), Err(13));
        }
        let plain = day.grant(&hop, 1010);
        let every = day.grant(&hop.clone().options(u32::MAX).pac_options(u32::MAX), 1010);
        assert_eq!(Ticket { number: plain.number, ..every }, plain);
        day.set(1, "web", 12, 0, 0);
        day.set(2, "store", 8, 0, 0x2);
        assert_eq!(day.ask(&hop, 1010), Err(13));
        assert_eq!(day.ask(&hop.clone().pac_options(!RESOURCE_BASED), 1010), Err(13));
        assert_eq!(day.ask(&hop.clone().options(0).pac_options(RESOURCE_BASED), 1010), Err(13));
        assert!(day.ask(&hop.pac_options(RESOURCE_BASED), 1010).is_ok());
        assert_eq!(day.ask(&kind_1("web").pac_options(0), 1010), Err(60));
        assert_eq!(day.ask(&kind_2(&tgt, "store").pac_options(0), 1010), Err(60));
        assert_eq!(day.ask(&kind_3(&tgt, "tech").pac_options(0), 1010), Err(60));
    }

    #[test]
    fn r5_5_kinds_1_and_2_and_a_mark_that_stays_on_an_old_tgt() {
        let mut day = Day::morning();
        let initial = kind_1("tech").options(FORWARDABLE);
        let open = day.grant(&initial, 1000);
        assert_eq!(marks(open), (FORWARDABLE | INITIAL, false));
        let unasked = day.grant(&kind_1("tech"), 1000);
        assert_eq!(marks(unasked), (INITIAL, false));
        day.set(0, "tech", 2, 0, 0);
        let closed = day.grant(&initial, 1000);
        assert_eq!(marks(closed), (INITIAL, true));
        let direct = |tgt: &Ticket| kind_2(tgt, "web").options(FORWARDABLE);
        assert_eq!(marks(day.grant(&direct(&open), 1000)), (0, true));
        day.set(0, "tech", 0, 0, 0);
        assert_eq!(marks(day.grant(&direct(&open), 1000)), (FORWARDABLE, false));
        assert_eq!(marks(day.grant(&kind_2(&open, "web"), 1000)), (0, false));
        assert_eq!(marks(day.grant(&direct(&unasked), 1000)), (0, false));
        assert_eq!(marks(day.grant(&direct(&closed), 1000)), (0, true));
    }

    /// Kind 3 for `tech` after `web` gets these flags and this send set.
    fn s4u2self_marks(flags: u32, send: u64, tgt_asks: bool, asks: bool) -> (u32, bool) {
        let mut day = Day::morning();
        let tgt = day.grant(&kind_1("web").options(forwardable_if(tgt_asks)), 1000);
        day.set(1, "web", flags, send, 0);
        marks(day.grant(&kind_3(&tgt, "tech").options(forwardable_if(asks)), 1000))
    }

    #[test]
    fn r5_6_kind_3() {
        for (tgt_asks, asks) in [(false, false), (false, true), (true, false), (true, true)] {
            assert_eq!(s4u2self_marks(12, 0x4, tgt_asks, asks), (FORWARDABLE, false));
            assert_eq!(s4u2self_marks(12, 0, tgt_asks, asks), (FORWARDABLE, false));
            assert_eq!(s4u2self_marks(8, 0x4, tgt_asks, asks), (0, false));
            assert_eq!(s4u2self_marks(8, 1 << 63, tgt_asks, asks), (0, false));
            let asked = forwardable_if(tgt_asks && asks);
            assert_eq!(s4u2self_marks(8, 0, tgt_asks, asks), (asked, false));
            assert_eq!(s4u2self_marks(10, 0, tgt_asks, asks), (asked, false));
        }
        let (mut day, tgt, _) = two_tickets();
        day.set(0, "tech", 2, 0, 0);
        assert_eq!(marks(day.grant(&kind_3(&tgt, "tech").options(FORWARDABLE), 1010)), (0, true));
    }

    #[test]
    fn r5_3_accounts_may_be_the_same() {
        let mut day = Day::morning();
        day.set(1, "web", 12, 0x2, 0);
        let tgt = day.grant(&kind_1("web"), 1000);
        let evidence = day.grant(&kind_3(&tgt, "web"), 1000);
        assert_eq!((evidence.client, evidence.service), (1, 1));
        let hop = day.grant(&kind_4(&tgt, &evidence, "web"), 1000);
        assert_eq!((hop.client, hop.service, hop.trail[0]), (1, 1, 1));
        assert_eq!(day.grant(&kind_2(&tgt, "web"), 1000).service, 1);
    }

    #[test]
    fn r5_7_one_bit_of_the_evidence_and_the_classic_route_overlooks_the_mark() {
        let (mut day, tgt, evidence) = two_tickets();
        let odd = Ticket { number: 70, flags: u32::MAX, barred: true, ..evidence };
        let none = Ticket { number: 71, flags: !FORWARDABLE, ..evidence };
        day.service.ledger.extend([odd, none]);
        assert_eq!(marks(day.grant(&kind_4(&tgt, &odd, "store"), 1010)), (FORWARDABLE, true));
        assert_eq!(day.ask(&kind_4(&tgt, &none, "store"), 1010), Err(13));
        day.set(2, "store", 8, 0, 0x2);
        let resource = kind_4(&tgt, &none, "store").pac_options(RESOURCE_BASED);
        assert_eq!(marks(day.grant(&resource, 1010)), (0, false));
    }

    #[test]
    fn r5_7_the_routes_by_themselves() {
        let (day, _, evidence) = two_tickets();
        let table = &day.service.table;
        assert!(classic_route(table, 1, 2, &evidence));
        assert!(!classic_route(table, 2, 1, &evidence));
        assert!(!classic_route(table, 1, ACCOUNT_LIMIT as Principal + 2, &evidence));
        assert!(!resource_route(table, 1, 2, RESOURCE_BASED, &evidence));
    }

    /// The end of a request's ticket, or its error number.
    fn end_of(day: &mut Day, request: &Asked, clock: u32) -> Result<u32, u8> {
        day.ask(request, clock).map(|ticket| ticket.end)
    }

    #[test]
    fn r5_9_lifetimes_and_till() {
        let mut day = Day::morning();
        let far = LAST_SECOND - 10;
        day.set_lifetime(1, "web", 12, u32::MAX);
        let tgt = day.grant(&kind_1("web"), far);
        assert_eq!(tgt.end, LAST_SECOND);
        day.set_lifetime(1, "web", 12, 4);
        day.set_lifetime(2, "store", 8, 7);
        assert_eq!(end_of(&mut day, &kind_1("web"), far), Ok(far + 4));
        assert_eq!(end_of(&mut day, &kind_2(&tgt, "store"), far), Ok(far + 7));
        assert_eq!(end_of(&mut day, &kind_3(&tgt, "tech"), far), Ok(far + 4));
        assert_eq!(end_of(&mut day, &kind_3(&tgt, "tech").till(0), far), Ok(far + 4));
        assert_eq!(end_of(&mut day, &kind_3(&tgt, "tech").till(far + 1), far), Ok(far + 1));
        assert_eq!(end_of(&mut day, &kind_3(&tgt, "tech").till(far), far), Err(11));
        day.set_lifetime(1, "web", 12, 0);
        assert_eq!(end_of(&mut day, &kind_3(&tgt, "tech"), far), Err(11));
        assert_eq!(end_of(&mut day, &kind_1("web"), far), Err(11));
        assert_eq!(end_of(&mut day, &kind_1("tech"), LAST_SECOND), Err(11));
    }

    #[test]
    fn r5_9_the_end_is_no_later_than_those_of_the_tgt_and_the_evidence() {
        let mut day = Day::morning();
        let long = day.grant(&kind_1("web"), 1000);
        let short = day.grant(&kind_1("web").till(3000), 1000);
        let evidence = day.grant(&kind_3(&long, "tech").till(2000), 1000);
        let free = day.grant(&kind_3(&long, "tech"), 1000);
        assert_eq!(end_of(&mut day, &kind_2(&short, "store"), 1500), Ok(3000));
        assert_eq!(end_of(&mut day, &kind_4(&long, &evidence, "store"), 1500), Ok(2000));
        assert_eq!(end_of(&mut day, &kind_4(&short, &free, "store"), 1500), Ok(3000));
        assert_eq!(end_of(&mut day, &kind_4(&long, &free, "store").till(1900), 1500), Ok(1900));
        assert_eq!(end_of(&mut day, &kind_4(&long, &free, "store"), 1500), Ok(1000 + LIFETIME));
        day.set_lifetime(2, "store", 8, 5);
        assert_eq!(end_of(&mut day, &kind_4(&long, &free, "store"), 1500), Ok(1505));
    }
}
