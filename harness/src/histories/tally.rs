//! How often each answer was reached, by the check that gave it (R6.2, R2.9), each kind of grant, each
//! kind of clearing (R7.6), and each kind of find (R2.11), of reading (R2.13, R7.7), of writing (R4.8), and
//! of saving and loading (R7.8, R7.9).

use super::draft::presented;
use super::finds::{Find, APART, FOUND, LENGTHS, NOT_FOUND};
use super::reading::{NOT_READ, NUMBERS, PLACES, READ, RECORDS};
use super::storing::{LOADED, NOT_LOADED, SAVED};
use super::writing::{NOT_WRITTEN, TOO_SHORT, WRITTEN};
use super::History;
use crate::accounts::{Edit, Table, ALL_FLAGS};
use crate::book::Book;
use crate::calls::NO_ACCOUNT;
use crate::decisions::{
    classic_route, has_cname_in_addl_tkt, has_ended, is_forwardable, is_too_early, resource_route,
};
use crate::limits::{
    ACCOUNT_LIMIT, CLOCK_SKEW, LAST_NUMBER, LAST_SECOND, TICKET_LIMIT, TRAIL_LIMIT,
};
use crate::past::Past;
use crate::record::{read_request, Kind, Origin, Principal, Request, Ticket};
use crate::service::Service;
use crate::words::COUNT_AT;
use std::collections::BTreeMap;
use std::fmt;

/// What is counted of a presented ticket that starts after the clock reading: grants, among them those
/// at the first second and those where the sum of clock and allowance does not fit 32 bits; and
/// refusals.
const EARLY: &[&str] = &[
    "granted",
    "granted at the first second",
    "granted, sum past 32 bits",
    "33 a second before it",
    "33, ended too",
    "32",
];

/// What has to be reached, in groups; nothing else may be.
const EXPECTED: &[(&str, &[&str])] = &[
    ("edits", &["new", "again", "60 number", "60 name", "60 flags", "12", "8"]),
    ("found", FOUND),
    ("found, bytes", LENGTHS),
    ("not found", NOT_FOUND),
    ("0x20 apart", APART),
    ("unreadable 60", &["short", "kind", "map", "missing", "left over", "ticket"]),
    ("output", &["52"]),
    ("TGT", &["41 not held", "41 unequal", "35 not initial", "33", "32", "18"]),
    ("evidence", &["41 not held", "41 unequal", "33", "32", "26 no service", "26 another", "18"]),
    ("41 cleared", &["TGT", "TGT, earlier clock", "evidence", "evidence, earlier clock"]),
    ("service", &["7 unknown", "7 disabled", "7 flag 8", "7 Service 1"]),
    ("user", &["6", "18"]),
    ("13", &["option", "bar", "route"]),
    ("13 bar, open", &["classic", "resource", "both", "neither"]),
    ("13 bar, beside", &["barred since", "61", "delegated evidence", "Service 1", "Service 2"]),
    ("barred client", &["18", "7", "13 option"]),
    ("last", &["61", "11", "29 full", "29 no number", "29 both"]),
    ("initial", &["FORWARDABLE", "mark", "neither"]),
    ("direct", &["FORWARDABLE", "mark", "neither"]),
    ("S4U2self", &["FORWARDABLE", "mark", "neither"]),
    ("S4U2self by", &["trusted", "untrusted, send set", "untrusted, no send set"]),
    ("delegated", &["FORWARDABLE", "neither", "both, from other words"]),
    ("route", &["classic", "resource", "both"]),
    ("eighth hop", &["classic", "resource", "both"]),
    ("hop granted", &["bar lifted", "Service 1 barred", "Service 2 barred", "delegated evidence"]),
    ("trail", &["1", "2", "3", "4", "5", "6", "7", "8"]),
    ("end by", &["lifetime", "last second", "TGT", "evidence", "till"]),
    ("number", &["below 512", "512 and above"]),
    ("other words", &["number below 512", "512 and above", "65535", "held already"]),
    ("place", &["new", "set free"]),
    ("granted at", &["start - 1", "start", "end - 1", "0"]),
    ("refused at", &["end", "0", "last second"]),
    ("early TGT", EARLY),
    ("early evidence", EARLY),
    ("no account", &["TGT 18", "evidence 26", "evidence 18"]),
    ("letter case", &["as set", "other"]),
    ("clearing", &["none", "some", "all", "nothing held"]),
    ("above limit", &["none", "some", "all"]),
    ("cleared at", &["end - 1", "end", "end + 1", "0", "0, some", "last second"]),
    ("start", &["fresh", "other words", "count above limit", "number twice", "name twice"]),
    ("next number", &["not held", "held", "near the last", "none left"]),
    ("descent", &["0", "1", "2", "3", "4", "5", "6", "7", "8", "9", "more", "41"]),
    ("cleared from", &["41", "number of another"]),
    ("account", READ),
    ("account 60", NOT_READ),
    ("looked at", PLACES),
    ("record at", RECORDS),
    ("ticket at", NUMBERS),
    ("written", WRITTEN),
    ("not written 60", NOT_WRITTEN),
    ("not written 52", TOO_SHORT),
    ("saved", SAVED),
    ("loaded", LOADED),
    ("not loaded 60", NOT_LOADED),
    ("after a load", &["granted", "refused"]),
];

/// How often each of them has to be reached.
const LEAST: u64 = 100;

/// What no call may be counted as: it is in no group.
pub(super) const NEVER: &str = "unexpected";

/// All that has to be reached, each with its group.
fn expected() -> impl Iterator<Item = (&'static str, &'static str)> {
    EXPECTED.iter().flat_map(|(group, names)| names.iter().map(move |name| (*group, *name)))
}

/// What a request met besides the service.
pub(super) struct Met<'a> {
    /// The grants and the clearings before it.
    pub past: &'a Past,
    /// The places below this one were held when a clearing took some out.
    pub freed: usize,
    /// The notes, where the history began with a fresh service.
    pub book: Option<&'a Book>,
    /// Whether something was loaded before it.
    pub is_loaded: bool,
}

/// The counts.
#[derive(Default)]
pub struct Tally {
    /// All calls of the histories.
    pub calls: u64,
    /// Grants and stored edits among them.
    pub granted: u64,
    counts: BTreeMap<(&'static str, &'static str), u64>,
}

impl Tally {
    /// Counts one more.
    pub(super) fn add(&mut self, group: &'static str, name: &'static str) {
        *self.counts.entry((group, name)).or_default() += 1;
    }

    /// Counts one more of each name.
    pub(super) fn add_all(
        &mut self,
        group: &'static str,
        names: impl Iterator<Item = &'static str>,
    ) {
        names.for_each(|name| self.add(group, name));
    }

    /// Adds the counts of another.
    pub fn join(&mut self, other: Tally) {
        self.calls += other.calls;
        self.granted += other.granted;
        for (key, count) in other.counts {
            *self.counts.entry(key).or_default() += count;
        }
    }

    /// What was reached too seldom.
    pub fn missing(&self) -> Vec<String> {
        let seldom = expected().filter(|key| self.counts.get(key).copied().unwrap_or(0) < LEAST);
        seldom.map(|(group, name)| format!("{group}: {name}")).collect()
    }

    /// What was reached and counted outside the list.
    pub fn unexpected(&self) -> Vec<String> {
        let outside = self.counts.iter().filter(|(key, _)| !expected().any(|other| other == **key));
        outside.map(|((group, name), count)| format!("{group}: {name}: {count}")).collect()
    }

    /// A history begins.
    pub(super) fn begins(&mut self, history: &History, service: &Service) {
        let Some(words) = &history.start else {
            return self.add("start", "fresh");
        };
        self.add("start", "other words");
        if words.ledger[COUNT_AT] > TICKET_LIMIT as u64 {
            self.add("start", "count above limit");
        }
        self.add("next number", next_number(service));
        let is_first = |ticket: &Ticket| {
            service.first_held(ticket.number).is_some_and(|first| std::ptr::eq(first, ticket))
        };
        if !service.ledger.iter().all(is_first) {
            self.add("start", "number twice");
        }
        let rows = (0..).zip(&service.table.rows);
        let mut names = rows.filter_map(|(number, row)| Some((number, row.as_ref()?.name())));
        if names.any(|(number, name)| service.table.find_name(name) != Some(number)) {
            self.add("start", "name twice");
        }
    }

    /// The descent of a ticket that is gone was answered.
    pub(super) fn descends_from_gone(&mut self, steps: Option<u32>) {
        self.add("cleared from", if steps.is_none() { "41" } else { "number of another" });
    }

    /// A descent call was answered.
    pub(super) fn descends(&mut self, steps: Option<u32>) {
        let names = ["0", "1", "2", "3", "4", "5", "6", "7", "8", "9"];
        let name = steps.map_or("41", |steps| names.get(steps as usize).copied().unwrap_or("more"));
        self.add("descent", name);
    }

    /// An edit was answered; `known` says whether its account was set before.
    pub(super) fn edited(&mut self, edit: &Edit, known: bool, error: u32) {
        self.calls += 1;
        self.granted += u64::from(error == 0);
        let name = match error {
            0 if known => "again",
            0 => "new",
            12 => "12",
            8 => "8",
            60 if edit.number as usize >= ACCOUNT_LIMIT => "60 number",
            60 if edit.flags > ALL_FLAGS.into() => "60 flags",
            60 => "60 name",
            _ => NEVER,
        };
        self.add("edits", name);
    }

    /// A find was answered with this number.
    pub(super) fn finds(&mut self, find: &Find, number: u32) {
        self.calls += 1;
        if number == NO_ACCOUNT {
            find.not_found().for_each(|name| self.add("not found", name));
            find.apart().for_each(|name| self.add("0x20 apart", name));
        } else {
            find.found(number).for_each(|name| self.add("found", name));
            find.length().for_each(|name| self.add("found, bytes", name));
        }
    }

    /// A clearing was answered: how many of these tickets it took out, where this count was stored.
    pub(super) fn cleared(&mut self, held: &[Ticket], stored: u64, clock: u32, taken: u32) {
        self.calls += 1;
        let name = match taken as usize {
            0 if held.is_empty() => "nothing held",
            0 => "none",
            taken if taken < held.len() => "some",
            taken if taken == held.len() => "all",
            _ => NEVER,
        };
        self.add("clearing", name);
        if stored > TICKET_LIMIT as u64 {
            self.add("above limit", name);
        }
        cleared_at(held, clock, taken > 0).for_each(|name| self.add("cleared at", name));
    }

    /// A request was answered. The service is the one after the call: a refusal leaves it as it
    /// was, and a grant leaves its accounts.
    pub(super) fn requested(
        &mut self,
        service: &Service,
        met: &Met,
        bytes: &[u8],
        clock: u32,
        error: u32,
    ) {
        self.calls += 1;
        if met.is_loaded {
            self.add("after a load", if error == 0 { "granted" } else { "refused" });
        }
        match read_request(bytes) {
            Err(_) => {
                self.add("unreadable 60", if error == 60 { unreadable(bytes) } else { NEVER })
            }
            Ok(request) if error == 0 => {
                self.grants(service, met, &request);
                self.count_place(service, met);
            }
            Ok(request) => {
                let refusal = Refusal { service, request: &request, clock };
                let (group, name) = refusal.reason(error);
                self.add(group, name);
                refusal.edges(error).for_each(|name| self.add("refused at", name));
                self.count_early(&request, clock, error, group);
                if let Some(name) = refusal.no_account(group, error) {
                    self.add("no account", name);
                }
                if let Some(name) = refusal.cleared(met.past, group, error) {
                    self.add("41 cleared", name);
                }
                self.count_bar(&refusal, met, group, name);
            }
        }
    }

    /// A request was granted: its ticket is the ledger's last.
    fn grants(&mut self, service: &Service, met: &Met, request: &Request) {
        self.granted += 1;
        let ticket = service.ledger.last().expect("a grant is in the ledger");
        let (group, name) = issued(ticket);
        self.add(group, name);
        self.add("end by", end_by(request, ticket));
        self.count_clock(request, ticket.start);
        self.count_early(request, ticket.start, 0, "TGT");
        self.count_early(request, ticket.start, 0, "evidence");
        self.count_name(service, request, ticket);
        if let Origin::S4U2self { .. } = ticket.origin {
            self.add("S4U2self by", s4u2self_by(service, ticket.service));
        }
        if let Some(hop) = Hop::of(&service.table, request) {
            self.count_hop(&hop, met, ticket.hops);
        }
    }

    /// A hop was granted, with a trail of so many accounts.
    fn count_hop(&mut self, hop: &Hop, met: &Met, hops: u8) {
        let trails = [NEVER, "1", "2", "3", "4", "5", "6", "7", "8"];
        self.add("trail", trails.get(usize::from(hops)).unwrap_or(&NEVER));
        let route = hop.open_route().unwrap_or(NEVER);
        self.add("route", route);
        if usize::from(hops) == TRAIL_LIMIT {
            self.add("eighth hop", route);
        }
        hop.granted(met.book).for_each(|name| self.add("hop granted", name));
    }

    /// R5.7: counts a refusal of this group and name, where the evidence's client is barred.
    fn count_bar(&mut self, refusal: &Refusal, met: &Met, group: &str, name: &str) {
        if !refusal.is_client_barred() {
            return;
        }
        match (group, name) {
            ("evidence", "18") => self.add("barred client", "18"),
            ("service", _) => self.add("barred client", "7"),
            ("13", "option") => self.add("barred client", "13 option"),
            ("13", "bar") => {
                let hop = refusal.hop().expect("a barred client's hop");
                self.add("13 bar, open", hop.open_route().unwrap_or("neither"));
                hop.barred(met.book).for_each(|name| self.add("13 bar, beside", name));
            }
            _ => {}
        }
    }

    /// The number of a granted ticket, the ledger's last, and its place.
    fn count_place(&mut self, service: &Service, met: &Met) {
        let place = service.ledger.len() - 1;
        let number = service.ledger[place].number;
        let high = usize::from(number) >= TICKET_LIMIT;
        let held = service.ledger[..place].iter().any(|ticket| ticket.number == number);
        self.add("place", if place < met.freed { "set free" } else { "new" });
        match (met.book.is_some(), held) {
            (true, true) => self.add("number", NEVER),
            (true, _) => self.add("number", if high { "512 and above" } else { "below 512" }),
            (_, true) => self.add("other words", "held already"),
            _ if number == LAST_NUMBER => self.add("other words", "65535"),
            _ => self.add("other words", if high { "512 and above" } else { "number below 512" }),
        }
    }

    /// Where a granted request's clock stood in the windows of its tickets.
    fn count_clock(&mut self, request: &Request, now: u32) {
        let (tgt, evidence) = presented(request);
        for ticket in tgt.into_iter().chain(evidence) {
            if ticket.start.checked_sub(1) == Some(now) {
                self.add("granted at", "start - 1");
            }
            if now == ticket.start {
                self.add("granted at", "start");
            }
            if now == ticket.end - 1 {
                self.add("granted at", "end - 1");
            }
        }
        if now == 0 {
            self.add("granted at", "0");
        }
    }

    /// R5.2: counts the ticket of this group, where its start was after the clock; the answer hung on
    /// it, or is a grant.
    fn count_early(&mut self, request: &Request, clock: u32, error: u32, group: &str) {
        let (tgt, evidence) = presented(request);
        let (group, ticket) = match group {
            "TGT" => ("early TGT", tgt),
            "evidence" => ("early evidence", evidence),
            _ => return,
        };
        let names = ticket.into_iter().flat_map(|ticket| early(ticket, clock, error));
        names.for_each(|name| self.add(group, name));
    }

    /// Whether the name of a granted request was written as the account's.
    fn count_name(&mut self, service: &Service, request: &Request, ticket: &Ticket) {
        let (number, name) = match request.kind {
            Kind::Initial { user } | Kind::S4U2self { user, .. } => (ticket.client, user),
            Kind::Direct { service, .. } | Kind::S4U2proxy { service, .. } => {
                (ticket.service, service)
            }
        };
        let account = service.table.account(number).expect("a granted name is an account's");
        self.add("letter case", if account.name() == name { "as set" } else { "other" });
    }
}

impl fmt::Display for Tally {
    fn fmt(&self, f: &mut fmt::Formatter) -> fmt::Result {
        writeln!(f, "{} calls, {} granted", self.calls, self.granted)?;
        for (group, names) in EXPECTED {
            let count = |name| self.counts.get(&(*group, name)).copied().unwrap_or(0);
            let parts = names.iter().map(|name| format!("{name}: {}", count(name)));
            writeln!(f, "  {group:14} | {}", parts.collect::<Vec<_>>().join(" | "))?;
        }
        Ok(())
    }
}

/// R4.3: why a request is unreadable.
fn unreadable(request: &[u8]) -> &'static str {
    let Some(&[high, low, kind]) = request.first_chunk() else {
        return "short";
    };
    let (needed, allowed) = match kind {
        1 => (0x41, 0x4B),
        2 => (0x91, 0x9B),
        3 => (0x51, 0x5B),
        4 => (0xB3, 0xBF),
        _ => return "kind",
    };
    let map = u16::from_be_bytes([high, low]);
    if map & needed != needed || map & !allowed != 0 {
        return "map";
    }
    let mut rest = &request[3..];
    for bit in (1..8).filter(|bit| map >> bit & 1 == 1) {
        let counted = rest.first().map_or(0, |&count| usize::from(count));
        let Some(further) = rest.get(if bit < 4 { 4 } else { 1 + counted }..) else {
            return "missing";
        };
        rest = further;
    }
    if rest.is_empty() {
        "ticket"
    } else {
        "left over"
    }
}

/// The names of the conditions that hold.
pub(super) fn holding<const N: usize>(
    names: [(bool, &'static str); N],
) -> impl Iterator<Item = &'static str> {
    names.into_iter().filter_map(|(holds, name)| holds.then_some(name))
}

/// The edges at which the clock of a clearing stood: those of the tickets held before it, and of the
/// clock itself.
fn cleared_at(held: &[Ticket], clock: u32, some: bool) -> impl Iterator<Item = &'static str> {
    let ends = || held.iter().map(|ticket| ticket.end);
    holding([
        (ends().any(|end| end.checked_sub(1) == Some(clock)), "end - 1"),
        (ends().any(|end| end == clock), "end"),
        (ends().any(|end| end.checked_add(1) == Some(clock)), "end + 1"),
        (clock == 0, "0"),
        (clock == 0 && some, "0, some"),
        (clock == LAST_SECOND, "last second"),
    ])
}

/// R5.2: what is counted of a ticket that was presented at this clock reading, by the answer.
fn early(ticket: &Ticket, clock: u32, error: u32) -> impl Iterator<Item = &'static str> {
    let ahead = ticket.start.saturating_sub(clock);
    let granted = error == 0 && ahead > 0;
    let past_32_bits = clock.checked_add(CLOCK_SKEW).is_none();
    holding([
        (granted, "granted"),
        (granted && ahead == CLOCK_SKEW, "granted at the first second"),
        (granted && past_32_bits, "granted, sum past 32 bits"),
        (error == 33 && ahead == CLOCK_SKEW + 1, "33 a second before it"),
        (error == 33 && has_ended(ticket, clock), "33, ended too"),
        (error == 32 && ahead > 0, "32"),
    ])
}

/// R5.10: the next number of a service from other words.
fn next_number(service: &Service) -> &'static str {
    match u16::try_from(service.next) {
        Err(_) => "none left",
        Ok(next) if next >= LAST_NUMBER - 5 => "near the last",
        Ok(next) if service.first_held(next).is_some() => "held",
        Ok(_) => "not held",
    }
}

/// The kind of a granted ticket, and what it carries.
fn issued(ticket: &Ticket) -> (&'static str, &'static str) {
    let group = match ticket.origin {
        Origin::Initial => "initial",
        Origin::Direct { .. } => "direct",
        Origin::S4U2self { .. } => "S4U2self",
        Origin::Delegated { .. } => "delegated",
    };
    let name = match (is_forwardable(ticket), ticket.barred) {
        (true, true) => "both, from other words",
        (true, false) => "FORWARDABLE",
        (false, true) => "mark",
        (false, false) => "neither",
    };
    (group, name)
}

/// R5.9: what gave a ticket its end; the first of the bounds that it equals.
fn end_by(request: &Request, ticket: &Ticket) -> &'static str {
    let (tgt, evidence) = presented(request);
    let ends_with = |other: Option<&Ticket>| other.is_some_and(|other| other.end == ticket.end);
    if ends_with(tgt) {
        "TGT"
    } else if ends_with(evidence) {
        "evidence"
    } else if request.till == ticket.end {
        "till"
    } else if ticket.end == LAST_SECOND {
        "last second"
    } else {
        "lifetime"
    }
}

/// R5.6: by what an S4U2self ticket's FORWARDABLE goes.
fn s4u2self_by(service: &Service, service_1: Principal) -> &'static str {
    if service.table.is_trusted(service_1) {
        "trusted"
    } else if service.table.sends_to_none(service_1) {
        "untrusted, no send set"
    } else {
        "untrusted, send set"
    }
}

/// A request of kind 4 whose service is found, and the table that it met.
struct Hop<'a> {
    table: &'a Table,
    service_1: Principal,
    service_2: Principal,
    pac_options: u32,
    evidence: &'a Ticket,
}

impl<'a> Hop<'a> {
    /// The hop that a request asks for.
    fn of(table: &'a Table, request: &'a Request) -> Option<Hop<'a>> {
        let Kind::S4U2proxy { tgt, evidence, service } = &request.kind else {
            return None;
        };
        let (service_1, service_2) = (tgt.client, table.find_name(service)?);
        Some(Hop { table, service_1, service_2, pac_options: request.pac_options, evidence })
    }

    /// R5.7: which routes are open, the bar aside.
    fn open_route(&self) -> Option<&'static str> {
        let Hop { table, service_1, service_2, pac_options, evidence } = *self;
        let classic = classic_route(table, service_1, service_2, evidence);
        let resource = resource_route(table, service_1, service_2, pac_options, evidence);
        match (classic, resource) {
            (true, true) => Some("both"),
            (true, false) => Some("classic"),
            (false, true) => Some("resource"),
            (false, false) => None,
        }
    }

    /// Whether the evidence is the ticket of an earlier hop.
    fn is_on_delegated(&self) -> bool {
        matches!(self.evidence.origin, Origin::Delegated { .. })
    }

    /// What is counted of a grant. None is for a barred client (R5.7), and the bar of another account
    /// does not matter (R5.8).
    fn granted(&self, book: Option<&Book>) -> impl Iterator<Item = &'static str> {
        let Hop { table, service_1, service_2, evidence, .. } = *self;
        let other_barred = |service| service != evidence.client && table.is_barred(service);
        holding([
            (table.is_barred(evidence.client), NEVER),
            (book.is_some_and(|book| was_barred_since(book, evidence)), "bar lifted"),
            (other_barred(service_1), "Service 1 barred"),
            (other_barred(service_2), "Service 2 barred"),
            (self.is_on_delegated(), "delegated evidence"),
        ])
    }

    /// What is counted of a refusal by the bar: that the client was not barred yet when the evidence was
    /// granted, that 61 would follow, what the evidence is, and who the client is besides.
    fn barred(&self, book: Option<&Book>) -> impl Iterator<Item = &'static str> {
        let Hop { service_1, service_2, evidence, .. } = *self;
        let full = usize::from(evidence.hops) == TRAIL_LIMIT;
        holding([
            (book.is_some_and(|book| was_unbarred_at(book, evidence)), "barred since"),
            (full && self.open_route().is_some(), "61"),
            (self.is_on_delegated(), "delegated evidence"),
            (evidence.client == service_1, "Service 1"),
            (evidence.client == service_2, "Service 2"),
        ])
    }
}

/// Whether a ticket's client was not barred when it was granted, by its note.
fn was_unbarred_at(book: &Book, ticket: &Ticket) -> bool {
    let mut notes = book.notes.iter();
    let note = notes.find(|note| note.ticket.number == ticket.number);
    note.is_some_and(|note| !note.table.is_barred(ticket.client))
}

/// Whether a ticket's client was barred when a later one was granted, by the notes that stand.
fn was_barred_since(book: &Book, ticket: &Ticket) -> bool {
    let mut later = book.notes.iter().rev().take_while(|note| note.ticket.number > ticket.number);
    later.any(|note| note.table.is_barred(ticket.client))
}

/// A refused request that reads, and the service that refused it.
struct Refusal<'a> {
    service: &'a Service,
    request: &'a Request<'a>,
    clock: u32,
}

impl Refusal<'_> {
    /// The check that gave this number.
    fn reason(&self, error: u32) -> (&'static str, &'static str) {
        match error {
            41 => self.not_as_held(),
            33 => (self.by(|ticket| is_too_early(ticket, self.clock)), "33"),
            32 => (self.by(|ticket| has_ended(ticket, self.clock)), "32"),
            18 => self.disabled(),
            26 => self.other_service(),
            7 => ("service", self.no_service()),
            13 => ("13", self.not_permitted()),
            52 => ("output", "52"),
            35 => ("TGT", "35 not initial"),
            6 => ("user", "6"),
            61 => ("last", "61"),
            11 => ("last", "11"),
            29 => ("last", self.no_room()),
            _ => ("last", NEVER),
        }
    }

    /// The hop that was asked for.
    fn hop(&self) -> Option<Hop<'_>> {
        Hop::of(&self.service.table, self.request)
    }

    /// Whether it presents evidence of a client who is barred.
    fn is_client_barred(&self) -> bool {
        let (_, evidence) = presented(self.request);
        evidence.is_some_and(|evidence| self.service.table.is_barred(evidence.client))
    }

    /// R6.6: why a hop is not permitted; the first of the causes.
    fn not_permitted(&self) -> &'static str {
        match self.hop() {
            Some(_) if !has_cname_in_addl_tkt(self.request) => "option",
            Some(_) if self.is_client_barred() => "bar",
            Some(hop) if hop.open_route().is_none() => "route",
            _ => NEVER,
        }
    }

    /// R6.7: what is not left.
    fn no_room(&self) -> &'static str {
        let full = self.service.held().len() == TICKET_LIMIT;
        let last = self.service.next > LAST_NUMBER.into();
        match (full, last) {
            (true, true) => "29 both",
            (true, false) => "29 full",
            (false, true) => "29 no number",
            (false, false) => NEVER,
        }
    }

    /// R7.6: the ticket for which 41 was given in this group, where a clearing took it out; and whether
    /// the clock is earlier than that clearing's.
    fn cleared(&self, past: &Past, group: &str, error: u32) -> Option<&'static str> {
        let (tgt, evidence) = presented(self.request);
        let ticket = if group == "TGT" { tgt } else { evidence };
        let taken_at = past.taken_at(ticket.filter(|_| error == 41)?)?;
        Some(match (group, self.clock < taken_at) {
            ("TGT", false) => "TGT",
            ("TGT", true) => "TGT, earlier clock",
            (_, false) => "evidence",
            (_, true) => "evidence, earlier clock",
        })
    }

    /// Which ticket fails a test, the TGT first.
    fn by(&self, fails: impl Fn(&Ticket) -> bool) -> &'static str {
        match presented(self.request) {
            (Some(tgt), _) if fails(tgt) => "TGT",
            _ => "evidence",
        }
    }

    /// The edges at which the clock stood.
    fn edges(&self, error: u32) -> impl Iterator<Item = &'static str> {
        let (tgt, evidence) = presented(self.request);
        let mut tickets = tgt.into_iter().chain(evidence);
        let late = error == 32 && tickets.any(|ticket| ticket.end == self.clock);
        let zero = self.clock == 0;
        let last = self.clock == LAST_SECOND;
        holding([(late, "end"), (zero, "0"), (last, "last second")])
    }

    /// R2.4: the ticket for which a refusal of this group was given, where it names a number beyond
    /// those of accounts.
    fn no_account(&self, group: &str, error: u32) -> Option<&'static str> {
        let (tgt, evidence) = presented(self.request);
        let beyond = |principal: Principal| usize::from(principal) >= ACCOUNT_LIMIT;
        match (group, error) {
            ("TGT", 18) if beyond(tgt?.client) => Some("TGT 18"),
            ("evidence", 26) if beyond(evidence?.service) => Some("evidence 26"),
            ("evidence", 18) if beyond(evidence?.client) => Some("evidence 18"),
            _ => None,
        }
    }

    /// The ticket that is not held, or not as it is held.
    fn not_as_held(&self) -> (&'static str, &'static str) {
        let first = |ticket: &Ticket| self.service.first_held(ticket.number);
        let which = self.by(|ticket| first(ticket) != Some(ticket));
        let (tgt, evidence) = presented(self.request);
        let ticket = if which == "TGT" { tgt } else { evidence };
        let is_held = ticket.is_some_and(|ticket| first(ticket).is_some());
        (which, if is_held { "41 unequal" } else { "41 not held" })
    }

    /// Whose account is disabled.
    fn disabled(&self) -> (&'static str, &'static str) {
        let is_disabled = |ticket: &Ticket| self.service.table.is_disabled(ticket.client);
        match (self.by(is_disabled), &self.request.kind) {
            ("TGT", _) => ("TGT", "18"),
            (_, Kind::S4U2proxy { .. }) => ("evidence", "18"),
            _ => ("user", "18"),
        }
    }

    /// Why the evidence's service is not Service 1.
    fn other_service(&self) -> (&'static str, &'static str) {
        let (_, evidence) = presented(self.request);
        let initial = evidence.is_some_and(|ticket| ticket.origin == Origin::Initial);
        ("evidence", if initial { "26 no service" } else { "26 another" })
    }

    /// Why the named service, or Service 1 in kind 3, is none.
    fn no_service(&self) -> &'static str {
        let (Kind::Direct { service, .. } | Kind::S4U2proxy { service, .. }) = self.request.kind
        else {
            return "7 Service 1";
        };
        match self.service.table.find_name(service) {
            None => "7 unknown",
            Some(number) if self.service.table.is_disabled(number) => "7 disabled",
            Some(_) => "7 flag 8",
        }
    }
}
