//! The states that cases begin with, made of both implementations by the same calls.

use crate::sides::Side;
use harness::accounts::{Edit, SERVICE};
use harness::decisions::{CNAME_IN_ADDL_TKT, FORWARDABLE};
use harness::limits::{ACCOUNT_LIMIT, LONGEST_RECORD, NAME_LIMIT, TICKET_LIMIT};
use harness::{service, words};
use tickets::{Request, FIELD_OPTIONS, FIELD_PAC_OPTIONS, FIELD_TILL};

/// The lifetime of every account.
pub const LIFETIME: u32 = 36_000;

/// When the tickets that a case does not present begin: this clock reading, and the seconds after.
const EARLY: u32 = 1000;

/// When the tickets that a case presents begin.
pub const START: u32 = 2000;

/// Names as a clinic may have them; several lengths, each of them several times.
#[rustfmt::skip]
static CLINIC: [&str; ACCOUNT_LIMIT] = [
    "tech", "web", "store", "lab", "pharmacy", "reception", "radiology", "night-desk",
    "ward-1", "ward-2", "ward-3", "ward-4", "ward-5", "ward-6", "ward-7", "ward-8",
    "nurse-anna", "nurse-bela", "nurse-cora", "nurse-dora", "dr.adler", "dr.berger", "dr.conrad", "dr.ebner",
    "imaging", "archive", "billing", "backup", "printer-1", "printer-2", "printer-3", "scanner",
    "mail", "calendar", "directory", "gateway", "recorder", "monitor", "dispatch", "ambulance",
    "triage", "surgery", "theatre-1", "theatre-2", "recovery", "icu-east", "icu-west", "dialysis",
    "oncology", "cardiology", "pediatrics", "maternity", "physio", "dental", "eye-clinic", "blood-bank",
    "web-portal", "web-mobile", "file-store", "image-store", "record-store", "lab-store", "notes-db", "orders-db",
];

/// R2.5: bytes that good names may have, and of which no two match; the last are letters.
const DIFFERING: &[u8; ACCOUNT_LIMIT] =
    b"{!\"#$%&'()*+,-./0123456789:;<=>?[\\]^_`abcdefghijklmnopqrstuvwxyz";

/// A byte that matches none of those.
pub const OTHER: u8 = b'~';

/// Names of the most bytes that differ in the last one alone.
static ENDS: [[u8; NAME_LIMIT]; ACCOUNT_LIMIT] = differing(NAME_LIMIT - 1);

/// Names of the most bytes that differ in the first one alone.
static FRONTS: [[u8; NAME_LIMIT]; ACCOUNT_LIMIT] = differing(0);

/// A name for each number, which has a byte of its own at a place of the name.
const fn differing(at: usize) -> [[u8; NAME_LIMIT]; ACCOUNT_LIMIT] {
    let mut names = [*b"recorder-ward-cardiology"; ACCOUNT_LIMIT];
    let mut number = 0;
    while number < ACCOUNT_LIMIT {
        names[number][at] = DIFFERING[number];
        number += 1;
    }
    names
}

/// The names of a table.
#[derive(Clone, Copy)]
pub enum Names {
    /// Those of a clinic.
    Clinic,
    /// Names of this length that differ in the last byte alone.
    Ends(usize),
    /// Names of 24 bytes that differ in the first one alone.
    Fronts,
}

impl Names {
    /// The name of an account.
    pub fn of(self, number: usize) -> &'static [u8] {
        match self {
            Names::Clinic => CLINIC[number].as_bytes(),
            Names::Ends(length) => &ENDS[number][NAME_LIMIT - length..],
            Names::Fronts => &FRONTS[number],
        }
    }
}

/// How much a state holds besides what its case needs.
#[derive(Clone, Copy)]
pub struct Size {
    /// The accounts' names.
    pub names: Names,
    /// Whether the table is full, with the case's accounts last.
    pub full: bool,
    /// How many tickets are held, if the case does not need more.
    pub tickets: usize,
}

/// Both implementations in the same state.
pub struct Pair {
    /// The compiled library's words.
    pub library: tickets::Service,
    /// The second implementation's service.
    pub second: service::Service,
}

impl Pair {
    /// A fresh service on both sides. The second implementation's has room for all tickets, and for the
    /// one that is put behind them (`Side::put_back`).
    fn fresh() -> Pair {
        let mut second = service::Service::fresh();
        second.ledger.reserve(TICKET_LIMIT + 1);
        Pair { library: tickets::Service::fresh(), second }
    }

    /// Another pair in this state.
    pub fn copy(&self) -> Pair {
        let mut copy = Pair { library: self.library.clone(), ..Pair::fresh() };
        copy.second.table = self.second.table.clone();
        copy.second.ledger.extend_from_slice(&self.second.ledger);
        copy.second.next = self.second.next;
        copy
    }

    /// Whether both sides stand for the same accounts, tickets and next number.
    pub fn agrees(&self) -> bool {
        let tickets::Service { accounts, ledger } = &self.library;
        words::service(accounts, ledger) == self.second
    }

    /// An edit that both sides store.
    fn edit(&mut self, edit: &Edit) {
        let errors = [Side::edit(&mut self.library, edit), Side::edit(&mut self.second, edit)];
        assert_eq!(errors, [0, 0], "{edit:?}");
    }

    /// The record of a request that both sides grant.
    fn grant(&mut self, request: &[u8], clock: u32) -> Vec<u8> {
        let [mut output, mut other] = [[0xEE; LONGEST_RECORD]; 2];
        let answer = Side::request(&mut self.library, request, clock, &mut output);
        let second = Side::request(&mut self.second, request, clock, &mut other);
        assert_eq!((answer, &output), (second, &other));
        assert_eq!(answer.error, 0, "{request:x?}");
        output[..answer.value as usize].to_vec()
    }
}

/// The fields of a request, those that stand.
#[derive(Clone, Default)]
pub struct Asked {
    pub kind: u8,
    pub options: Option<u32>,
    pub pac_options: Option<u32>,
    pub till: Option<u32>,
    pub tgt: Option<Vec<u8>>,
    pub evidence: Option<Vec<u8>>,
    pub user: Option<Vec<u8>>,
    pub service: Option<Vec<u8>>,
}

impl Asked {
    /// The request's bytes, as the library writes them.
    pub fn bytes(&self) -> Vec<u8> {
        let bit = |field: Option<u32>, bit| if field.is_some() { bit } else { 0 };
        let [tgt, evidence, user, service] = [&self.tgt, &self.evidence, &self.user, &self.service]
            .map(|part| part.as_deref().unwrap_or_default());
        let parts = Request {
            kind: self.kind.into(),
            options: self.options.unwrap_or(0),
            pac_options: self.pac_options.unwrap_or(0),
            till: self.till.unwrap_or(0),
            tgt,
            evidence,
            user,
            service,
            fields: bit(self.options, FIELD_OPTIONS)
                | bit(self.pac_options, FIELD_PAC_OPTIONS)
                | bit(self.till, FIELD_TILL),
        };
        parts.to_vec().expect("a request has these parts")
    }
}

/// A state in the making. A case counts its accounts from 0; in a full table they are the last.
pub struct Stage {
    /// The state so far.
    pub pair: Pair,
    size: Size,
    /// The table's number of the case's account 0.
    first: usize,
}

impl Stage {
    /// A state for a case with so many accounts of its own, which are to be set yet.
    pub fn new(size: Size, own: usize) -> Stage {
        let first = if size.full { ACCOUNT_LIMIT - own } else { 0 };
        let mut stage = Stage { pair: Pair::fresh(), size, first: 0 };
        for number in 0..first {
            stage.set(number, SERVICE, &[], &[]);
        }
        stage.first = first;
        stage
    }

    /// The table's number of one of the case's accounts.
    pub fn number(&self, own: usize) -> usize {
        self.first + own
    }

    /// The name of one of the case's accounts.
    pub fn name(&self, own: usize) -> &'static [u8] {
        self.size.names.of(self.number(own))
    }

    /// The edit of one of the case's accounts, with sets of others of them.
    pub fn edit(&self, own: usize, flags: u8, send: &[usize], receive: &[usize]) -> Edit<'static> {
        let set = |owns: &[usize]| owns.iter().fold(0, |set, &own| set | 1 << self.number(own));
        Edit {
            number: self.number(own) as u32,
            name: self.name(own),
            flags: flags.into(),
            send: set(send),
            receive: set(receive),
            lifetime: LIFETIME,
        }
    }

    /// Sets one of the case's accounts.
    pub fn set(&mut self, own: usize, flags: u8, send: &[usize], receive: &[usize]) {
        let edit = self.edit(own, flags, send, receive);
        self.pair.edit(&edit);
    }

    /// Fills the ledger with initial tickets of account 0, but for the case's last tickets.
    pub fn fill(&mut self, own: usize) {
        let user = Some(self.size.names.of(0).to_vec());
        let request = Asked { kind: 1, user, ..Asked::default() }.bytes();
        for clock in (EARLY..).take(self.size.tickets.saturating_sub(own)) {
            self.pair.grant(&request, clock);
        }
    }

    /// The record of a request that is granted.
    pub fn grant(&mut self, asked: &Asked, clock: u32) -> Vec<u8> {
        self.pair.grant(&asked.bytes(), clock)
    }

    /// The initial ticket of one of the case's accounts, FORWARDABLE.
    pub fn tgt(&mut self, own: usize) -> Vec<u8> {
        let asked = self.kind_1(own);
        self.grant(&asked, START)
    }

    /// Kind 1 for one of the case's accounts, asking for FORWARDABLE.
    pub fn kind_1(&self, user: usize) -> Asked {
        let user = Some(self.name(user).to_vec());
        Asked { kind: 1, options: Some(FORWARDABLE), user, ..Asked::default() }
    }

    /// Kind 2 with a TGT to one of the case's accounts, asking for FORWARDABLE.
    pub fn kind_2(&self, tgt: &[u8], service: usize) -> Asked {
        let (options, service) = (Some(FORWARDABLE), Some(self.name(service).to_vec()));
        Asked { kind: 2, options, tgt: Some(tgt.to_vec()), service, ..Asked::default() }
    }

    /// Kind 3 with a TGT for one of the case's accounts.
    pub fn kind_3(&self, tgt: &[u8], user: usize) -> Asked {
        let user = Some(self.name(user).to_vec());
        Asked { kind: 3, tgt: Some(tgt.to_vec()), user, ..Asked::default() }
    }

    /// Kind 4 with a TGT and evidence to one of the case's accounts, with CNAME-IN-ADDL-TKT.
    pub fn kind_4(&self, tgt: &[u8], evidence: &[u8], service: usize) -> Asked {
        let (tgt, evidence) = (Some(tgt.to_vec()), Some(evidence.to_vec()));
        let (options, service) = (Some(CNAME_IN_ADDL_TKT), Some(self.name(service).to_vec()));
        Asked { kind: 4, options, tgt, evidence, service, ..Asked::default() }
    }
}
