//! The plain book's notes and its next number (R8.2, R8.4, R8.5), and the check of lawful descent over
//! the notes (R9.1 to R9.8). The routes and the bar of R5.7 are stated once more here, apart from the
//! decisions.

use std::fmt::Debug;
use std::rc::Rc;

use crate::accounts::Table;
use crate::limits::{ACCOUNT_LIMIT, TRAIL_LIMIT};
use crate::record::{read_request, Error, Kind, Origin, Principal, Ticket};
use crate::service::Service;

/// R2.2: the flag of an account that is barred.
const BARRED: u8 = 2;

/// R3.4, R4.4: the bits that a hop hangs on, of the evidence's flags, the options and the PAC options.
const FORWARDABLE: u32 = 1 << 30;
const CNAME_IN_ADDL_TKT: u32 = 1 << 17;
const RESOURCE_BASED: u32 = 1 << 28;

/// R9.2: the most steps back: a hop for each place of the trail, and the step from the first ticket
/// to its TGT.
const MOST_STEPS: usize = TRAIL_LIMIT + 1;

/// R8.4: a granted ticket with what the book writes down beside it.
#[derive(Clone, Debug, PartialEq, Eq)]
pub struct Note {
    pub ticket: Ticket,
    pub request: Vec<u8>,
    /// R2.10: the table of the ticket's moment; notes between two edits share one.
    pub table: Rc<Table>,
}

/// The notes of a day that stand, in the order of the grants.
#[derive(Clone, Debug, Default, PartialEq, Eq)]
pub struct Book {
    pub notes: Vec<Note>,
    /// R5.10: the number of the next ticket, by the book's own count of the grants.
    pub next: u64,
}

impl Book {
    /// A book without notes, for a fresh service.
    pub fn new() -> Book {
        Book::default()
    }

    /// R8.4: notes a granted ticket with its request and the table that it was decided by, and counts
    /// it.
    pub fn note(&mut self, ticket: Ticket, request: &[u8], table: &Table) {
        let table = match self.notes.last() {
            Some(last) if *last.table == *table => Rc::clone(&last.table),
            _ => Rc::new(table.clone()),
        };
        self.notes.push(Note { ticket, request: request.to_vec(), table });
        self.next += 1;
    }

    /// R8.5: strikes out the notes of tickets whose end the clock has reached, and answers how many.
    pub fn clear(&mut self, clock: u32) -> u32 {
        let before = self.notes.len();
        self.notes.retain(|note| clock < note.ticket.end);
        (before - self.notes.len()) as u32
    }

    /// Makes a request of the service, and notes it if it is granted.
    pub fn request(
        &mut self,
        service: &mut Service,
        request: &[u8],
        clock: u32,
        output: &mut [u8],
    ) -> Result<usize, Error> {
        let length = service.request(request, clock, output)?;
        if let Some(&ticket) = service.ledger.last() {
            self.note(ticket, request, &service.table);
        }
        Ok(length)
    }
}

/// A rule that a ticket breaks, in words.
type Broken = &'static str;

/// Checks R9.1 to R9.8 for every ticket from this place of the notes on; the answer names the first
/// ticket that breaks one of them, and what is broken.
pub fn lawful(notes: &[Note], from: usize) -> Result<(), String> {
    let ledger = Ledger::of(notes);
    for note in &notes[from..] {
        check(&ledger, note)
            .map_err(|broken| format!("ticket {}: {broken}", note.ticket.number))?;
    }
    Ok(())
}

/// R7.4, R9.2: checks for every ticket from this place of the notes on that this descent call answers
/// how many steps back its initial ticket is.
pub fn descents<E: Debug>(
    notes: &[Note],
    from: usize,
    descent: impl Fn(u32) -> Result<u32, E>,
) -> Result<(), String> {
    let ledger = Ledger::of(notes);
    for number in notes[from..].iter().map(|note| note.ticket.number) {
        let steps = ledger.steps(number).map_err(|broken| format!("ticket {number}: {broken}"))?;
        let answer = descent(number.into());
        if !matches!(answer, Ok(counted) if counted == steps) {
            return Err(format!("ticket {number}: descent gives {answer:?}, not {steps} steps"));
        }
    }
    Ok(())
}

/// What is broken, unless the condition holds.
fn ensure(condition: bool, broken: Broken) -> Result<(), Broken> {
    if condition {
        Ok(())
    } else {
        Err(broken)
    }
}

/// R9.1: by number, the note of the ticket that it stands for.
struct Ledger<'a>(Vec<Option<&'a Note>>);

impl<'a> Ledger<'a> {
    /// The ledger of these notes.
    fn of(notes: &'a [Note]) -> Ledger<'a> {
        let highest = notes.iter().map(|note| note.ticket.number).max().unwrap_or(0);
        let mut first = vec![None; usize::from(highest) + 1];
        for note in notes {
            first[usize::from(note.ticket.number)].get_or_insert(note);
        }
        Ledger(first)
    }

    /// The first note of a number.
    fn first_held(&self, number: u16) -> Option<&'a Note> {
        self.0.get(usize::from(number)).copied().flatten()
    }

    /// R9.2: the ticket and those that its steps back lead to, the initial one last.
    fn path(&self, note: &'a Note) -> Result<Vec<&'a Note>, Broken> {
        let mut path = Vec::with_capacity(MOST_STEPS + 1);
        path.push(note);
        let mut ticket = &note.ticket;
        while let Some(back) = back(ticket) {
            ensure(path.len() <= MOST_STEPS, "more than nine steps to an initial ticket")?;
            ensure(back < ticket.number, "a step's number does not fall")?;
            let next = self.first_held(back).ok_or("a step leads to a ticket that is not held")?;
            path.push(next);
            ticket = &next.ticket;
        }
        Ok(path)
    }

    /// R9.2: the steps from the first ticket of a number to the initial one, none from that itself.
    fn steps(&self, number: u16) -> Result<u32, Broken> {
        let note = self.first_held(number).ok_or("the ticket is not held")?;
        self.path(note).map(|path| path.len() as u32 - 1)
    }
}

/// R9.1: the number of the ticket one step back; an initial ticket has none.
fn back(ticket: &Ticket) -> Option<u16> {
    match ticket.origin {
        Origin::Delegated { evidence, .. } => Some(evidence),
        Origin::Direct { tgt } | Origin::S4U2self { tgt } => Some(tgt),
        Origin::Initial => None,
    }
}

/// Whether the grant of this ticket was a hop.
fn is_delegated(ticket: &Ticket) -> bool {
    matches!(ticket.origin, Origin::Delegated { .. })
}

/// R9.4: how many tickets of the path are along the evidence, the first ticket among them.
fn along(path: &[&Note]) -> usize {
    path.iter().take_while(|note| is_delegated(&note.ticket)).count() + 1
}

/// R9.2 to R9.8 for one ticket.
fn check(ledger: &Ledger, note: &Note) -> Result<(), Broken> {
    let ticket = &note.ticket;
    let path = ledger.path(note)?;
    let along = &path[..along(&path)];
    match ticket.origin {
        Origin::Initial => {}
        Origin::Direct { tgt } => {
            let tgt = check_tgt(ledger, ticket, tgt)?;
            ensure(tgt.client == ticket.client, "a direct ticket's TGT is another client's")?;
        }
        Origin::S4U2self { tgt } => {
            let tgt = check_tgt(ledger, ticket, tgt)?;
            ensure(tgt.client == ticket.service, "an S4U2self ticket's TGT is not its service's")?;
        }
        Origin::Delegated { tgt, .. } => {
            let tgt = check_tgt(ledger, ticket, tgt)?;
            check_evidence(ticket, tgt, &path[1].ticket)?;
            check_hop(note, tgt, &path[1].ticket)?;
            check_bar(ticket, along)?;
        }
    }
    check_client(ticket, along)?;
    check_trail(ticket, along)
}

/// R9.2, R9.3: the TGT of a ticket: held, under a lower number, initial, and no earlier in its end.
fn check_tgt<'a>(ledger: &Ledger<'a>, ticket: &Ticket, tgt: u16) -> Result<&'a Ticket, Broken> {
    ensure(tgt < ticket.number, "the TGT's number does not fall")?;
    let tgt = &ledger.first_held(tgt).ok_or("the TGT is not held")?.ticket;
    ensure(tgt.origin == Origin::Initial, "the TGT is not initial")?;
    ensure(ticket.end <= tgt.end, "the end is later than the TGT's")?;
    Ok(tgt)
}

/// R9.2, R9.3: the evidence of a delegated ticket: not initial, for the TGT's client, and no earlier
/// in its end.
fn check_evidence(ticket: &Ticket, tgt: &Ticket, evidence: &Ticket) -> Result<(), Broken> {
    ensure(evidence.origin != Origin::Initial, "the evidence is initial")?;
    ensure(tgt.client == evidence.service, "a hop's TGT is not its evidence's service's")?;
    ensure(ticket.end <= evidence.end, "the end is later than the evidence's")
}

/// R9.7: by its note, the request of a hop presented these tickets and named the ticket's service, and
/// it had its option and a route.
fn check_hop(note: &Note, tgt: &Ticket, evidence: &Ticket) -> Result<(), Broken> {
    let request = read_request(&note.request).map_err(|_| "a hop's request is unreadable")?;
    let Kind::S4U2proxy { tgt: asked_tgt, evidence: asked_evidence, service: name } = &request.kind
    else {
        return Err("a hop's request is not of kind 4");
    };
    let same = asked_tgt == tgt && asked_evidence == evidence;
    ensure(same, "a hop's request presents other tickets")?;
    let service_2 = note.ticket.service;
    let named = find_name(&note.table, name);
    ensure(named == Some(service_2), "a hop's request names another service")?;
    ensure(request.options & CNAME_IN_ADDL_TKT != 0, "a hop's request lacks CNAME-IN-ADDL-TKT")?;
    let route = route(&note.table, tgt.client, service_2, request.pac_options, evidence);
    ensure(route, "no route permits a hop")
}

/// R2.7: the lowest number of a set account whose name matches.
fn find_name(table: &Table, name: &[u8]) -> Option<Principal> {
    (0..).zip(&table.rows).find_map(|(number, row)| {
        let matches = row.as_ref()?.name().eq_ignore_ascii_case(name);
        matches.then_some(number)
    })
}

/// R5.7: whether a route of kind 4 holds: the classic one by Service 1's send set, or the resource one
/// by Service 2's receive set.
fn route(
    table: &Table,
    service_1: Principal,
    service_2: Principal,
    pac_options: u32,
    evidence: &Ticket,
) -> bool {
    let account = |principal: Principal| table.rows.get(usize::from(principal))?.as_ref();
    let in_set = |set: u64, principal: Principal| {
        usize::from(principal) < ACCOUNT_LIMIT && set & (1 << principal) != 0
    };
    let sends = account(service_1).is_some_and(|account| in_set(account.send, service_2));
    let receives = account(service_2).is_some_and(|account| in_set(account.receive, service_1));
    let classic = sends && evidence.flags & FORWARDABLE != 0;
    let resource = receives && pac_options & RESOURCE_BASED != 0 && !evidence.barred;
    classic || resource
}

/// R9.8: a hop's client was barred at no ticket along the evidence, by the table of each: not at the
/// first ticket, at no hop between, and not at the hop itself.
fn check_bar(ticket: &Ticket, along: &[&Note]) -> Result<(), Broken> {
    let barred = |note: &&Note| {
        let row = note.table.rows.get(usize::from(ticket.client)).and_then(Option::as_ref);
        row.is_some_and(|account| account.flags & BARRED != 0)
    };
    let first = along.len() - 1;
    let (own, between, first) = (&along[..1], &along[1..first], &along[first..]);
    let none = |notes: &[&Note], broken| ensure(!notes.iter().any(barred), broken);
    none(first, "a hop for a client that was barred when the first ticket was given")?;
    none(between, "a hop for a client that was barred when a hop before it was given")?;
    none(own, "a hop for a client that was barred when it was given")
}

/// R9.5: one client along the evidence.
fn check_client(ticket: &Ticket, along: &[&Note]) -> Result<(), Broken> {
    let same = along.iter().all(|note| note.ticket.client == ticket.client);
    ensure(same, "another client along the evidence")
}

/// R9.6: the trail is the services of the tickets behind this one along the evidence, that of the
/// first ticket first; a ticket that is not delegated has no trail.
fn check_trail(ticket: &Ticket, along: &[&Note]) -> Result<(), Broken> {
    if !is_delegated(ticket) {
        return ensure(ticket.hops == 0, "a trail on a ticket that is not delegated");
    }
    let passed = along[1..].iter().rev().map(|note| &note.ticket.service);
    let trail = ticket.trail.iter().take(ticket.hops.into());
    ensure(passed.eq(trail), "the trail is not the services passed through")
}

#[cfg(test)]
mod tests {
    use super::*;
    use crate::fixtures::{edit, kind_1, kind_2, kind_3, kind_4, Day};

    /// The places of the history's tickets.
    const S4U2SELF: usize = 10;
    const HOP_1: usize = 11;
    const HOP_2: usize = 12;
    const HOP_8: usize = 18;
    const DIRECT: usize = 19;
    const RESOURCE_HOP: usize = 20;

    /// The services of a chain, accounts 1 to 9.
    const SERVICES: [&str; 9] = ["s1", "s2", "s3", "s4", "s5", "s6", "s7", "s8", "s9"];

    /// Accounts of which each odd one hops to the next by the classic route and each even one by
    /// the resource route.
    fn accounts() -> Day {
        let mut day = Day::on(Service::fresh());
        day.set(0, "tech", 0, 0, 0);
        for (number, name) in (1..).zip(SERVICES) {
            let odd = number % 2 == 1;
            let send = if odd { 1 << (number + 1) } else { 0 };
            let receive = if odd { 1 << (number - 1) } else { 0 };
            day.set(number, name, 12, send, receive);
        }
        day
    }

    /// The TGTs of the services (0 to 8) and of `tech` (9), an S4U2self ticket (10) with eight hops
    /// over both routes (11 to 18), and a direct ticket (19) with one hop by the resource route (20).
    /// Between these two `tech` is barred and the bar lifted, and after all it is barred.
    fn history() -> Day {
        let mut day = accounts();
        let tgts = SERVICES.map(|name| day.grant(&kind_1(name), 1000));
        let client = day.grant(&kind_1("tech"), 1000);
        let mut evidence = day.grant(&kind_3(&tgts[0], "tech").till(20000), 1000);
        for (tgt, service) in tgts.iter().zip(&SERVICES[1..]) {
            let hop = kind_4(tgt, &evidence, service).pac_options(RESOURCE_BASED);
            evidence = day.grant(&hop, 1000);
        }
        let direct = day.grant(&kind_2(&client, "s2"), 1000);
        day.set_flags(0, 2);
        day.set_flags(0, 4);
        day.grant(&kind_4(&tgts[1], &direct, "s3").pac_options(RESOURCE_BASED), 1000);
        for (number, name) in (1..).zip(SERVICES) {
            day.set(number, name, 9, 0, 0);
        }
        day.set_flags(0, 2);
        day
    }

    /// What is said of the history after this damage.
    fn damaged(damage: impl Fn(&mut Vec<Note>)) -> String {
        let Book { mut notes, .. } = history().book;
        damage(&mut notes);
        lawful(&notes, 0).unwrap_err()
    }

    /// What is said of the history after this damage to one ticket.
    fn damaged_ticket(at: usize, damage: impl Fn(&mut Ticket)) -> String {
        damaged(|notes| damage(&mut notes[at].ticket))
    }

    /// What is said of the history after this damage to the origin of one ticket.
    fn damaged_origin(at: usize, origin: Origin) -> String {
        damaged_ticket(at, |ticket| ticket.origin = origin)
    }

    /// The table after one more edit.
    fn edited(table: &Table, number: u32, name: &str, flags: u32) -> Rc<Table> {
        let mut table = table.clone();
        table.edit(&edit(number, name, flags, 0, 0)).unwrap();
        Rc::new(table)
    }

    #[test]
    fn r9_2_chains_of_eight_hops_are_lawful() {
        let Day { service, book } = history();
        assert_eq!(lawful(&book.notes, 0), Ok(()));
        assert_eq!(descents(&book.notes, 0, |number| service.descent(number)), Ok(()));
        assert_eq!(service.descent(HOP_8 as u32), Ok(9));
        assert_eq!(book.notes[HOP_8].ticket.trail, [1, 2, 3, 4, 5, 6, 7, 8]);
        assert_eq!(book.notes.len(), RESOURCE_HOP + 1);
        assert!(lawful(&[], 0).is_ok());
    }

    #[test]
    fn r8_4_notes_between_two_edits_share_their_table() {
        let notes = history().book.notes;
        assert!(Rc::ptr_eq(&notes[0].table, &notes[DIRECT].table));
        assert!(!Rc::ptr_eq(&notes[DIRECT].table, &notes[RESOURCE_HOP].table));
    }

    #[test]
    fn r8_4_a_refused_request_is_not_noted() {
        let mut day = history();
        assert_eq!(day.ask(&kind_1("ghost"), 1000), Err(6));
        assert_eq!(day.book.notes.len(), RESOURCE_HOP + 1);
    }

    #[test]
    fn r8_4_the_book_counts_the_grants() {
        let mut day = history();
        let granted = RESOURCE_HOP as u64 + 1;
        assert_eq!(day.ask(&kind_1("ghost"), 1000), Err(6));
        assert_eq!((day.book.next, day.service.next), (granted, granted));
        assert_eq!(day.clear(u32::MAX), granted as u32);
        assert_eq!((day.book.next, day.service.next), (granted, granted));
    }

    #[test]
    fn r8_5_a_clearing_strikes_out_the_notes_that_have_ended() {
        // The S4U2self ticket and its eight hops end at 20000, all others at 37000.
        let mut day = history();
        assert_eq!((day.book.clear(19999), day.book.notes.len()), (0, RESOURCE_HOP + 1));
        assert_eq!((day.clear(20000), day.book.notes.len()), (9, RESOURCE_HOP + 1 - 9));
        let noted = day.book.notes.iter().map(|note| note.ticket);
        assert!(noted.eq(day.service.ledger.iter().copied()));
        assert_eq!(lawful(&day.book.notes, 0), Ok(()));
        assert_eq!(descents(&day.book.notes, 0, |number| day.service.descent(number)), Ok(()));
        assert_eq!(day.service.descent(HOP_8 as u32), Err(Error::Modified));
        assert_eq!((day.clear(37000), &day.book.notes), (12, &vec![]));
    }

    #[test]
    fn r9_2_what_a_standing_ticket_rests_on_has_to_stand() {
        let struck = damaged(|notes| notes.retain(|note| note.ticket.number != S4U2SELF as u16));
        assert_eq!(struck, "ticket 11: a step leads to a ticket that is not held");
        let struck = damaged(|notes| notes.retain(|note| note.ticket.number != 7));
        assert_eq!(struck, "ticket 18: the TGT is not held");
    }

    #[test]
    fn from_a_place_on_earlier_tickets_are_not_asked() {
        let mut notes = history().book.notes;
        notes[S4U2SELF].ticket.hops = 1;
        assert_eq!(lawful(&notes, DIRECT), Ok(()));
        assert!(lawful(&notes, S4U2SELF).is_err());
    }

    #[test]
    fn r9_2_the_steps_back() {
        let more = damaged(|notes| {
            let mut ninth = notes[HOP_8].clone();
            ninth.ticket.number = 30;
            ninth.ticket.origin = Origin::Delegated { tgt: 8, evidence: HOP_8 as u16 };
            notes.push(ninth);
        });
        assert_eq!(more, "ticket 30: more than nine steps to an initial ticket");
        for tgt in [S4U2SELF as u16, HOP_1 as u16] {
            let rising = damaged_origin(S4U2SELF, Origin::S4U2self { tgt });
            assert_eq!(rising, "ticket 10: a step's number does not fall");
        }
        let lost = damaged_ticket(0, |ticket| ticket.number = 900);
        assert_eq!(lost, "ticket 10: a step leads to a ticket that is not held");
    }

    #[test]
    fn r9_1_the_first_ticket_of_a_number_counts() {
        let twice = damaged(|notes| {
            let other =
                Note { ticket: Ticket { number: 0, ..notes[1].ticket }, ..notes[1].clone() };
            notes.insert(0, other);
        });
        assert_eq!(twice, "ticket 10: an S4U2self ticket's TGT is not its service's");
    }

    #[test]
    fn r9_3_the_tgt() {
        let rising = damaged_origin(HOP_1, Origin::Delegated { tgt: 11, evidence: 10 });
        assert_eq!(rising, "ticket 11: the TGT's number does not fall");
        let lost = damaged_ticket(1, |ticket| ticket.number = 900);
        assert_eq!(lost, "ticket 12: the TGT is not held");
        let not_initial = damaged_origin(DIRECT, Origin::Direct { tgt: 10 });
        assert_eq!(not_initial, "ticket 19: the TGT is not initial");
        let other = damaged_origin(DIRECT, Origin::Direct { tgt: 0 });
        assert_eq!(other, "ticket 19: a direct ticket's TGT is another client's");
        let other = damaged_origin(S4U2SELF, Origin::S4U2self { tgt: 1 });
        assert_eq!(other, "ticket 10: an S4U2self ticket's TGT is not its service's");
        let other = damaged_origin(HOP_1, Origin::Delegated { tgt: 1, evidence: 10 });
        assert_eq!(other, "ticket 11: a hop's TGT is not its evidence's service's");
    }

    #[test]
    fn r9_3_the_evidence_is_not_initial() {
        let initial = damaged_origin(HOP_1, Origin::Delegated { tgt: 0, evidence: 0 });
        assert_eq!(initial, "ticket 11: the evidence is initial");
    }

    #[test]
    fn r9_2_the_ends() {
        for at in [S4U2SELF, HOP_1, DIRECT] {
            let later = damaged_ticket(at, |ticket| ticket.end = 37001);
            assert_eq!(later, format!("ticket {at}: the end is later than the TGT's"));
        }
        let later = damaged_ticket(HOP_1, |ticket| ticket.end = 20001);
        assert_eq!(later, "ticket 11: the end is later than the evidence's");
    }

    #[test]
    fn r9_7_the_request_of_a_hop() {
        let unreadable = damaged(|notes| notes[HOP_1].request.push(0));
        assert_eq!(unreadable, "ticket 11: a hop's request is unreadable");
        let kind = damaged(|notes| notes[HOP_1].request = notes[S4U2SELF].request.clone());
        assert_eq!(kind, "ticket 11: a hop's request is not of kind 4");
        for (tgt, evidence) in [(1, S4U2SELF), (0, HOP_2)] {
            let tickets = damaged(|notes| {
                let hop = kind_4(&notes[tgt].ticket, &notes[evidence].ticket, "s2");
                notes[HOP_1].request = hop.bytes();
            });
            assert_eq!(tickets, "ticket 11: a hop's request presents other tickets");
        }
        let service = damaged_ticket(HOP_8, |ticket| ticket.service = 3);
        assert_eq!(service, "ticket 18: a hop's request names another service");
    }

    #[test]
    fn r9_7_a_hop_needs_its_option_and_a_route_in_its_own_table() {
        // The second byte of the options, which stand after the map and the kind.
        let option = damaged(|notes| notes[HOP_1].request[4] &= !0x02);
        assert_eq!(option, "ticket 11: a hop's request lacks CNAME-IN-ADDL-TKT");
        let classic = damaged(|notes| notes[HOP_1].table = edited(&notes[0].table, 1, "s1", 12));
        assert_eq!(classic, "ticket 11: no route permits a hop");
        let resource = damaged(|notes| notes[HOP_2].table = edited(&notes[0].table, 3, "s3", 12));
        assert_eq!(resource, "ticket 12: no route permits a hop");
        // The first byte of the PAC options, which stand after the options.
        let resource = damaged(|notes| notes[RESOURCE_HOP].request[7] &= !0x10);
        assert_eq!(resource, "ticket 20: no route permits a hop");
    }

    #[test]
    fn r9_7_the_evidence_must_fit_the_route() {
        let forward = damaged(|notes| {
            notes[S4U2SELF].ticket.flags = 0;
            let evidence = notes[S4U2SELF].ticket;
            let tgt = notes[0].ticket;
            notes[HOP_1].request = kind_4(&tgt, &evidence, "s2").bytes();
        });
        assert_eq!(forward, "ticket 11: no route permits a hop");
        let marked = damaged(|notes| {
            notes[DIRECT].ticket.barred = true;
            let evidence = notes[DIRECT].ticket;
            let hop = kind_4(&notes[1].ticket, &evidence, "s3").pac_options(RESOURCE_BASED);
            notes[RESOURCE_HOP].request = hop.bytes();
        });
        assert_eq!(marked, "ticket 20: no route permits a hop");
    }

    /// The notes of the history, where `tech` was barred at the ticket of this place.
    fn barred(at: usize) -> Vec<Note> {
        let Book { mut notes, .. } = history().book;
        notes[at].table = edited(&notes[at].table, 0, "tech", 2);
        notes
    }

    #[test]
    fn r9_8_no_hop_for_a_client_who_was_barred_along_the_evidence() {
        for (at, asked, when) in [
            (S4U2SELF, HOP_1, "the first ticket was given"),
            (S4U2SELF, HOP_2, "the first ticket was given"),
            (S4U2SELF, HOP_8, "the first ticket was given"),
            (DIRECT, RESOURCE_HOP, "the first ticket was given"),
            (HOP_1, HOP_2, "a hop before it was given"),
            (HOP_1, HOP_8, "a hop before it was given"),
            (HOP_2, HOP_8, "a hop before it was given"),
            (HOP_8 - 1, HOP_8, "a hop before it was given"),
            (HOP_1, HOP_1, "it was given"),
            (HOP_2, HOP_2, "it was given"),
            (HOP_8, HOP_8, "it was given"),
            (RESOURCE_HOP, RESOURCE_HOP, "it was given"),
        ] {
            let said = format!("ticket {asked}: a hop for a client that was barred when {when}");
            assert_eq!(lawful(&barred(at), asked), Err(said));
        }
    }

    #[test]
    fn r9_8_a_bar_counts_at_tickets_along_the_evidence_alone() {
        // At a TGT, at a later hop, along other evidence, and for a ticket that is not delegated.
        for (at, asked) in [
            (0, HOP_1),
            (9, RESOURCE_HOP),
            (HOP_2, HOP_1),
            (HOP_8, HOP_2),
            (DIRECT, HOP_8),
            (S4U2SELF, RESOURCE_HOP),
            (S4U2SELF, S4U2SELF),
            (DIRECT, DIRECT),
        ] {
            let notes = barred(at);
            assert_eq!(check(&Ledger::of(&notes), &notes[asked]), Ok(()), "{at}, {asked}");
        }
    }

    #[test]
    fn r9_8_bars_between_two_tickets_and_later_ones_are_lawful() {
        let mut day = Day::morning();
        day.set(1, "web", 12, 0x6, 0);
        let tgt = day.grant(&kind_1("web"), 1000);
        let mut evidence = day.grant(&kind_3(&tgt, "tech"), 1010);
        for _ in 0..3 {
            let hop = kind_4(&tgt, &evidence, "web");
            day.set_flags(0, 2);
            assert_eq!(day.ask(&hop, 1020), Err(13));
            day.set_flags(0, 0);
            evidence = day.grant(&hop, 1020);
        }
        day.set_flags(0, 2);
        assert_eq!(lawful(&day.book.notes, 0), Ok(()));
        // Service 1, which is Service 2 too, is barred at a hop for another client.
        day.set_flags(0, 0);
        day.set_flags(1, 14);
        day.grant(&kind_4(&tgt, &evidence, "web"), 1020);
        assert_eq!(lawful(&day.book.notes, 0), Ok(()));
    }

    #[test]
    fn r9_5_one_client_along_the_evidence() {
        let client = damaged_ticket(HOP_8, |ticket| ticket.client = 5);
        assert_eq!(client, "ticket 18: another client along the evidence");
    }

    #[test]
    fn r9_6_the_trail() {
        for at in [0, S4U2SELF, DIRECT] {
            let trail = damaged_ticket(at, |ticket| ticket.hops = 1);
            assert_eq!(trail, format!("ticket {at}: a trail on a ticket that is not delegated"));
        }
        let said = "ticket 18: the trail is not the services passed through";
        assert_eq!(damaged_ticket(HOP_8, |ticket| ticket.trail[0] = 7), said);
        assert_eq!(damaged_ticket(HOP_8, |ticket| ticket.trail.reverse()), said);
        assert_eq!(damaged_ticket(HOP_8, |ticket| ticket.hops = 7), said);
        assert_eq!(damaged_ticket(HOP_8, |ticket| ticket.trail[7] = 9), said);
        let longer = damaged_ticket(RESOURCE_HOP, |ticket| ticket.hops = 2);
        assert_eq!(longer, "ticket 20: the trail is not the services passed through");
    }

    #[test]
    fn r7_4_the_descent_call() {
        let Day { service, book } = history();
        let one_more = |number| service.descent(number).map(|steps| steps + 1);
        let said = descents(&book.notes, 0, one_more).unwrap_err();
        assert_eq!(said, "ticket 0: descent gives Ok(1), not 0 steps");
        let refused = descents(&book.notes, 0, |_| Err(Error::Modified)).unwrap_err();
        assert_eq!(refused, "ticket 0: descent gives Err(Modified), not 0 steps");
    }
}
