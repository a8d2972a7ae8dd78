//! The cases: each a state, a call, and the error number that it has to give.

use crate::scenes::{self, other_client, other_number, Alike, Scene, END, FIRST, NOW, UNKNOWN};
use crate::sides::{make, Call, Changes, Output, Side};
use crate::stage::{Names, Pair, Size};
use harness::accounts::{Edit, BARRED, DISABLED};
use harness::calls::NO_ACCOUNT;
use harness::decisions::CNAME_IN_ADDL_TKT;
use harness::limits::{ACCOUNT_LIMIT, LONGEST_RECORD, NAME_LIMIT, TICKET_LIMIT};
use harness::request_writer::Parts;
use harness::samples::{counted, w1, w3_with, TICKET_0, TICKET_1, TICKET_2};
use harness::words;

/// A call in a state.
pub struct Case {
    /// What the table calls it.
    pub name: String,
    /// The error number that it has to give, 0 where it is not refused.
    pub error: u32,
    /// The state, on both sides.
    pub pair: Pair,
    /// The call.
    pub call: Call,
}

/// Cases with a heading.
pub struct Group {
    /// The heading.
    pub heading: String,
    /// The names of those among its cases that the summary shows.
    pub telling: &'static [&'static str],
    /// The cases.
    pub cases: Vec<Case>,
}

/// The cases that make no call: the loop around most calls, and the one around clearings.
pub const LOOP: &str = "no call, the loop alone";
pub const CLEARING_LOOP: &str = "no call, the ledger put back";

/// What the summary shows of a full service.
const OF_FULL: &[&str] = &[
    "kind 1, initial",
    "kind 2, direct",
    "kind 3, S4U2self",
    "kind 4, S4U2proxy, classic route",
    "60: one byte",
    "41: kind 4, TGT unequal",
    "7: kind 3, Service 1 is no service",
    "13: kind 4, no route",
    "edit, the row as it was",
    "descent, nine steps",
    "day total",
];

/// What the summary shows of the names found alone.
const OF_FINDS: &[&str] = &[
    "find, 24 bytes, the last row",
    "find, 24 bytes, the last row, in capitals",
    "find, 24 bytes, none",
];

/// The lengths of the names that are found alone.
const LENGTHS: [usize; 5] = [1, 7, 8, 9, NAME_LIMIT];

/// Two words of eight letters that match, each letter by its case (R2.12).
const CAPITALS: u64 = u64::from_le_bytes(*b"RECORDER");
const SMALL: u64 = u64::from_le_bytes(*b"recorder");

/// The clearings.
const CLEARINGS: &[&str] =
    &["clear, none of 512 ended", "clear, half of 512 ended", "clear, all of 512 ended"];

/// A delegated record with a full trail, and the barred mark.
const LONGEST: &[u8; LONGEST_RECORD] = b"\x03\xff\x01\x02\x40\x00\x00\x00\x03\x04\x00\x00\x03\xe8\x00\x00\x90\x88\x05\x06\x07\x08\x08\x01\x02\x03\x04\x05\x06\x07\x08";

/// A name with a byte at its end that no name has.
const BAD_NAME: &[u8] = b"orders-d@";

/// All cases.
pub fn groups() -> Vec<Group> {
    let empty = Size { names: Names::Clinic, full: false, tickets: 0 };
    let full = Size { full: true, tickets: TICKET_LIMIT - 1, ..empty };
    let ends = Size { names: Names::Ends(NAME_LIMIT), ..full };
    let fronts = Size { names: Names::Fronts, ..full };
    let brim = Size { tickets: TICKET_LIMIT, ..full };
    let service = |size| {
        [grants(size), of_tgt(size), of_evidence(size), of_names(size), of_end(size), others(size)]
            .into_iter()
            .flatten()
            .collect()
    };
    let proxy = &["kind 4, S4U2proxy, classic route"];
    let held = format!("{ACCOUNT_LIMIT} accounts, {} tickets", full.tickets);
    let found = format!(
        "Names found alone, {ACCOUNT_LIMIT} of one length that differ in the last byte \
         (second: plain byte-by-byte matcher over the same words)"
    );
    vec![
        group("Records and requests alone", &["request W3, 52 bytes"], record_layer(empty)),
        group("As few accounts and tickets as the call needs", proxy, service(empty)),
        group(&held, OF_FULL, service(full)),
        group("The same, names of 24 bytes that differ in the last", proxy, alike(ends)),
        group("The same, names of 24 bytes that differ in the first", &[], alike(fronts)),
        group(&found, OF_FINDS, finds()),
        group("A full ledger cleared", CLEARINGS, clearings(brim)),
        group("A full service read, saved and loaded", &["save", "load"], stored(brim)),
    ]
}

/// Cases with a heading, and those of them that the summary shows.
fn group(heading: &str, telling: &'static [&'static str], cases: Vec<Case>) -> Group {
    for name in telling {
        assert!(cases.iter().any(|case| case.name == *name), "{heading}: there is no {name}");
    }
    Group { heading: heading.to_string(), telling, cases }
}

/// A case that is not refused.
fn done(name: &str, (pair, call): (Pair, Call)) -> Case {
    Case { name: name.to_string(), error: 0, pair, call }
}

/// A case that is refused.
fn refused(error: u32, name: &str, (pair, call): (Pair, Call)) -> Case {
    Case { name: format!("{error}: {name}"), error, pair, call }
}

/// The record layer's calls, and the loop around all calls.
fn record_layer(size: Size) -> Vec<Case> {
    let with = |call| (scenes::bare(size).stage.pair, call);
    let rewrite = |bytes: &[u8]| with(Call::Rewrite(bytes.to_vec()));
    let request = |bytes: &[u8]| with(Call::ReadRequest(bytes.to_vec()));
    let w3 = w3_with(&counted(TICKET_1));
    vec![
        done(LOOP, with(Call::Nothing(Changes::Parts { account: 0 }))),
        done("record of ticket 0, initial, 17 bytes", rewrite(TICKET_0)),
        done("record of ticket 1, S4U2self, 20 bytes", rewrite(TICKET_1)),
        done("record of ticket 2, delegated, 24 bytes", rewrite(TICKET_2)),
        done(&format!("longest delegated record, {LONGEST_RECORD} bytes"), rewrite(LONGEST)),
        refused(60, "record of ticket 2 and a byte left over", rewrite(&[TICKET_2, &[0]].concat())),
        done("request W1, 7 bytes", request(&w1())),
        done("request W3, 52 bytes", request(&w3)),
        refused(60, "request W3 with a byte missing", request(&w3[..w3.len() - 1])),
        done("write W1, kind 1, 7 bytes", with(Call::WriteRequest(parts_of_w1()))),
        done("write W3, kind 4, 52 bytes", with(Call::WriteRequest(parts_of_w3()))),
    ]
}

/// The parts of W1.
fn parts_of_w1() -> Parts<'static> {
    Parts { kind: 1, user: b"web", ..Parts::default() }
}

/// The parts of W3.
fn parts_of_w3() -> Parts<'static> {
    let options = CNAME_IN_ADDL_TKT;
    Parts {
        kind: 4,
        options,
        tgt: TICKET_0,
        evidence: TICKET_1,
        service: b"store",
        ..Parts::default()
    }
}

/// Every kind of grant.
fn grants(size: Size) -> Vec<Case> {
    vec![
        done("kind 1, initial", scenes::initial(size).call()),
        done("kind 2, direct", scenes::direct(size).call()),
        done("kind 3, S4U2self", scenes::s4u2self(size).call()),
        done("kind 4, S4U2proxy, classic route", scenes::classic(size).call()),
        done("kind 4, S4U2proxy, resource route", scenes::resource(size).call()),
        done("kind 4, S4U2proxy, before the starts", scenes::classic(size).at(FIRST).call()),
    ]
}

/// Refusals of the request, the output and the TGT.
fn of_tgt(size: Size) -> Vec<Case> {
    let direct = || scenes::direct(size);
    let classic = || scenes::classic(size);
    let mut damaged = classic().asked.bytes();
    damaged.pop();
    let short = LONGEST_RECORD - 1;
    let output = format!("kind 4, output of {short} bytes");
    vec![
        refused(60, "one byte", scenes::bare(size).with_bytes(vec![0])),
        refused(60, "kind 4, the last byte missing", scenes::bare(size).with_bytes(damaged)),
        refused(52, &output, classic().room(short).call()),
        refused(41, "kind 2, TGT not held", direct().tgt(other_number).call()),
        refused(41, "kind 2, TGT unequal", direct().tgt(other_client).call()),
        refused(41, "kind 4, TGT unequal", classic().tgt(other_client).call()),
        refused(35, "kind 2, TGT is not initial", scenes::direct_for_tgt(size).call()),
        refused(33, "kind 2, too early for the TGT", direct().at(FIRST - 1).call()),
        refused(32, "kind 2, at the TGT's end", direct().at(END).call()),
        refused(18, "kind 2, TGT's client disabled", direct().flags(0, DISABLED).call()),
    ]
}

/// Refusals of the evidence.
fn of_evidence(size: Size) -> Vec<Case> {
    let classic = || scenes::classic(size);
    vec![
        refused(41, "kind 4, evidence not held", classic().evidence(other_number).call()),
        refused(41, "kind 4, evidence unequal", classic().evidence(other_client).call()),
        refused(33, "kind 4, too early for the evidence", scenes::later_evidence(size).call()),
        refused(32, "kind 4, at the evidence's end", scenes::ended_evidence(size).call()),
        refused(26, "kind 4, evidence of another", scenes::evidence_of_another(size).call()),
        refused(18, "kind 4, evidence's client disabled", classic().flags(0, DISABLED).call()),
    ]
}

/// Refusals of the names.
fn of_names(size: Size) -> Vec<Case> {
    let initial = || scenes::initial(size);
    let direct = || scenes::direct(size);
    let s4u2self = || scenes::s4u2self(size);
    vec![
        refused(7, "kind 2, service unknown", direct().service(UNKNOWN).call()),
        refused(7, "kind 2, no service", direct().flags(1, 0).call()),
        refused(7, "kind 3, Service 1 is no service", s4u2self().flags(0, 0).call()),
        refused(6, "kind 1, user unknown", initial().user(UNKNOWN).call()),
        refused(6, "kind 3, user unknown", s4u2self().user(UNKNOWN).call()),
        refused(18, "kind 1, user disabled", initial().flags(0, DISABLED).call()),
        refused(18, "kind 3, user disabled", s4u2self().flags(1, DISABLED).call()),
    ]
}

/// The last refusals: the hop's, the end's and the ledger's.
fn of_end(size: Size) -> Vec<Case> {
    let brim = Size { tickets: TICKET_LIMIT, ..size };
    vec![
        refused(13, "kind 4, no route", scenes::no_route(size).call()),
        refused(13, "kind 4, client barred", scenes::classic(size).flags(0, BARRED).call()),
        refused(61, "kind 4, ninth hop", scenes::nine_steps(size).call()),
        refused(11, "kind 1, till now", scenes::initial(size).till(NOW).call()),
        refused(11, "kind 4, till now", scenes::classic(size).till(NOW).call()),
        refused(29, &format!("kind 1, {TICKET_LIMIT} tickets held"), scenes::initial(brim).call()),
        refused(29, &format!("kind 4, {TICKET_LIMIT} tickets held"), scenes::classic(brim).call()),
    ]
}

/// The edits of the last account, the descent of the last ticket, and the day total.
fn others(size: Size) -> Vec<Case> {
    let Scene { stage, .. } = scenes::initial(size);
    let kept = stage.edit(0, 0, &[], &[]);
    let unset = scenes::one_unset(size);
    let taken = Edit { name: unset.name(0), ..unset.edit(1, 0, &[], &[]) };
    let chain = scenes::nine_steps(size).stage.pair;
    let last = chain.second.ledger.last().expect("the last of the hops").number.into();
    let with = |call| (stage.pair.copy(), call);
    vec![
        done("edit, the row as it was", with(Call::Edit(kept))),
        refused(60, "edit, bad name", with(Call::Edit(Edit { name: BAD_NAME, ..kept }))),
        refused(12, "edit, another name", with(Call::Edit(Edit { name: UNKNOWN, ..kept }))),
        refused(8, "edit, name of another", (unset.pair, Call::Edit(taken))),
        done("descent, nine steps", (chain, Call::Descent(last))),
        done("day total", with(Call::DayTotal)),
    ]
}

/// What is read of a service, and the service saved and loaded.
fn stored(size: Size) -> Vec<Case> {
    let pair = scenes::nine_steps(size).stage.pair;
    let (place, number) = (pair.second.ledger.len() as u32 - 1, ACCOUNT_LIMIT as u32 - 1);
    let words = Box::new(pair.library.clone());
    let saved = words.to_saved();
    let with = |call| (pair.copy(), call);
    vec![
        done("account, the last", with(Call::Account(number))),
        done("ticket at the last place, delegated", with(Call::TicketAt(place))),
        done("save", with(Call::Save(words))),
        done("load", with(Call::Load(saved))),
    ]
}

/// The calls that look for a name, in a table of names alike.
fn alike(size: Size) -> Vec<Case> {
    let initial = scenes::initial(size);
    let kept = initial.stage.edit(0, 0, &[], &[]);
    let capitals = kept.name.to_ascii_uppercase();
    vec![
        done("kind 1, initial", scenes::initial(size).call()),
        done("kind 1, initial, in capitals", scenes::initial(size).user(&capitals).call()),
        done("kind 4, S4U2proxy, classic route", scenes::classic(size).call()),
        done("kind 4, S4U2proxy, resource route", scenes::resource(size).call()),
        done("edit, the row as it was", (initial.stage.pair, Call::Edit(kept))),
    ]
}

/// The finds among names of each length, one of a length that no row has, and two words.
fn finds() -> Vec<Case> {
    let table = Alike::new(NAME_LIMIT);
    let shorter = table.find(&table.last()[..NAME_LIMIT - 1], NO_ACCOUNT);
    let words = (table.pair, Call::WordsMatch(CAPITALS, SMALL));
    let others = [
        done("find, 23 bytes, all rows have 24", shorter),
        done("two words that match by letter case", words),
    ];
    LENGTHS.into_iter().flat_map(finds_of).chain(others).collect()
}

/// The finds among names of this length: the last row's, the same in capitals, and one that no row has.
fn finds_of(length: usize) -> [Case; 3] {
    let table = Alike::new(length);
    let (last, number) = (table.last(), ACCOUNT_LIMIT as u32 - 1);
    let bytes = if length == 1 { "byte" } else { "bytes" };
    let name = |what: &str| format!("find, {length} {bytes}, {what}");
    [
        done(&name("the last row"), table.find(&last, number)),
        done(&name("the last row, in capitals"), table.find(&last.to_ascii_uppercase(), number)),
        done(&name("none"), table.find(&table.other(), NO_ACCOUNT)),
    ]
}

/// The clearings of a full ledger, and the loop around them.
fn clearings(size: Size) -> Vec<Case> {
    let [none, half, all] = [|_| false, |place| place % 2 == 0, |_| true];
    let (pair, _) = scenes::clearing(size, none);
    vec![
        done(CLEARING_LOOP, (pair, Call::Nothing(Changes::Ledger))),
        done(CLEARINGS[0], scenes::clearing(size, none)),
        done(CLEARINGS[1], scenes::clearing(size, half)),
        done(CLEARINGS[2], scenes::clearing(size, all)),
    ]
}

impl Case {
    /// Whether the case is one of the loops.
    pub fn is_loop(&self) -> bool {
        matches!(self.call, Call::Nothing(_))
    }

    /// The name of the loop around the call.
    pub fn loop_name(&self) -> &'static str {
        match self.call.changes() {
            Changes::Parts { .. } => LOOP,
            Changes::Ledger => CLEARING_LOOP,
        }
    }

    /// Makes the call once of both sides, and looks whether all is as it has to be: one answer with
    /// the case's error number, one output, one state; and every word put back as it was.
    pub fn check(&self) {
        let Pair { mut library, mut second } = self.pair.copy();
        let kept = (library.keep(self.call.changes()), second.keep(self.call.changes()));
        let mut expected = library.clone();
        let [mut output, mut other] = [Output::marked(), Output::marked()];
        let said = make(&mut library, &self.call, &mut output);
        assert_eq!(said, make(&mut second, &self.call, &mut other), "{}", self.name);
        assert_eq!(said.error, self.error, "{}", self.name);
        assert!(output == other, "{}: the outputs", self.name);
        match &self.call {
            Call::Request { .. } if said.error == 0 => {
                let ticket = second.ledger.last().expect("a granted ticket is held");
                words::store_ticket(&mut expected.ledger, ticket);
            }
            Call::Edit(edit) if said.error == 0 => words::store_edit(&mut expected.accounts, edit),
            Call::Clear(clock) => words::store_clearing(&mut expected.ledger, *clock),
            _ => {}
        }
        assert!(library == expected, "{}: the library's words", self.name);
        let mut after = Pair { library, second };
        assert!(after.agrees(), "{}: the states", self.name);
        after.library.put_back(&kept.0);
        after.second.put_back(&kept.1);
        let Pair { library, second } = &self.pair;
        assert!(after.library == *library && after.second == *second, "{}: put back", self.name);
    }
}
