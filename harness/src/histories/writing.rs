//! Writings of a history (R4.8): the parts of a request as a writing is given them, and what is counted
//! of it.

use super::draft::Draft;
use super::replay::{same, same_bytes, Outcome, Pair, MARGIN};
use super::tally::{holding, Tally, NEVER};
use super::Hex;
use crate::calls::{self, Answer};
use crate::limits::{LONGEST_COUNTED, LONGEST_RECORD, LONGEST_REQUEST};
use crate::random::Random;
use crate::record::{read_ticket, OPTIONS, PAC_OPTIONS, TILL};
use crate::request_writer::{Parts, EVIDENCE, SERVICE, TGT, USER};
use std::fmt;
use tickets::raw;

/// What is counted of a request that is written.
pub const WRITTEN: &[&str] = &[
    "kind 1",
    "kind 2",
    "kind 3",
    "kind 4",
    "options",
    "PAC options",
    "till",
    "till 0",
    "bit needed anyway",
    "no name",
    "name of 255",
    "exactly as long",
    "longer",
];

/// What is counted of parts that no request has: the cause, where there is one alone. A bit is one that
/// the kind does not allow; what is given has no field that stands.
pub const NOT_WRITTEN: &[&str] = &[
    "kind 0",
    "kind 5 to 255",
    "kind 256 and above",
    "PAC options bit",
    "record's bit",
    "name's bit",
    "bit 8 to 15",
    "bit 16 to 31",
    "options given",
    "PAC options given",
    "till given",
    "TGT given",
    "evidence given",
    "user given",
    "service given",
    "name of 256",
    "longer name",
    "no record",
    "record short",
    "record long",
    "record altered",
    SEVERAL,
    SHORT_TOO,
];

/// What is counted where several causes hold, and where no request would have room in the output either.
const SEVERAL: &str = "several";
const SHORT_TOO: &str = "short output too";

/// What is counted of an output that is too short.
pub const TOO_SHORT: &[&str] = &["one short", "none", "shorter"];

/// The bytes of the shortest request: map, kind, and a name without bytes.
const SHORTEST_REQUEST: usize = 4;

/// The parts of a request, and the map bits of the optional fields that stand.
#[derive(Clone, Debug, Default, PartialEq, Eq)]
pub struct OwnedParts {
    pub kind: u32,
    pub options: u32,
    pub pac_options: u32,
    pub till: u32,
    pub tgt: Vec<u8>,
    pub evidence: Vec<u8>,
    pub user: Vec<u8>,
    pub service: Vec<u8>,
    pub fields: u32,
}

impl OwnedParts {
    /// The parts of a draft, those whose bits stand.
    pub fn of(draft: &Draft) -> Self {
        let stands = |bit: u16| draft.map & bit != 0;
        let number = |bit, number: u32| if stands(bit) { number } else { 0 };
        let bytes = |bit, bytes: &Vec<u8>| if stands(bit) { bytes.clone() } else { Vec::new() };
        Self {
            kind: draft.kind.into(),
            options: number(OPTIONS, draft.options),
            pac_options: number(PAC_OPTIONS, draft.pac_options),
            till: number(TILL, draft.till),
            tgt: bytes(TGT, &draft.tgt),
            evidence: bytes(EVIDENCE, &draft.evidence),
            user: bytes(USER, &draft.user),
            service: bytes(SERVICE, &draft.service),
            fields: (draft.map & (OPTIONS | PAC_OPTIONS | TILL)).into(),
        }
    }

    /// The same, lent.
    pub fn lent(&self) -> Parts<'_> {
        let Self { kind, options, pac_options, till, fields, .. } = *self;
        let Self { tgt, evidence, user, service, .. } = self;
        Parts { kind, options, pac_options, till, tgt, evidence, user, service, fields }
    }

    /// The bits of the request's map.
    fn map(&self) -> u32 {
        let needed = [0, 0x41, 0x91, 0x51, 0xB3];
        needed.get(self.kind as usize).map_or(0, |needed| needed | self.fields)
    }

    /// Whether a field stands.
    fn stands(&self, bit: u16) -> bool {
        self.map() & u32::from(bit) != 0
    }

    /// The records, each with whether it stands.
    fn records(&self) -> [(&[u8], bool); 2] {
        [(&self.tgt, self.stands(TGT)), (&self.evidence, self.stands(EVIDENCE))]
    }

    /// The names, each with whether it stands.
    fn names(&self) -> [(&[u8], bool); 2] {
        [(&self.user, self.stands(USER)), (&self.service, self.stands(SERVICE))]
    }
}

impl fmt::Display for OwnedParts {
    fn fmt(&self, f: &mut fmt::Formatter) -> fmt::Result {
        let Self { kind, options, pac_options, till, fields, .. } = self;
        write!(f, "kind {kind}, options {options:#x}, PAC options {pac_options:#x}, till {till}")?;
        write!(f, ", TGT {}, evidence {}", Hex(&self.tgt), Hex(&self.evidence))?;
        let (user, service) = (self.user.escape_ascii(), self.service.escape_ascii());
        write!(f, ", user \"{user}\", service \"{service}\", fields {fields:#x}")
    }
}

impl Pair {
    /// Writes a request on both sides, each to an output among the same random bytes; what is written
    /// reads as the same parts (R4.9).
    pub(super) fn write(
        &mut self,
        parts: &OwnedParts,
        length: usize,
        tally: &mut Tally,
    ) -> Result<Outcome, String> {
        let mut by_library = self.random.bytes(length + 2 * MARGIN);
        let mut by_second = by_library.clone();
        let output = MARGIN..MARGIN + length;
        let given = parts.lent();
        let answer = raw::write_request(&given.into(), &mut by_library[output.clone()]);
        let second = calls::write_request(&given, &mut by_second[output]);
        same("the answer", answer.into(), second)?;
        same_bytes("the request", &by_library, &by_second)?;
        if answer.error == 0 {
            read_back(parts, &by_library[MARGIN..][..answer.value as usize])?;
        }
        tally.written(parts, length, answer.into());
        Ok(Outcome { error: answer.error, granted: None })
    }
}

/// R4.9: that the library reads a request as these parts.
fn read_back(parts: &OwnedParts, request: &[u8]) -> Result<(), String> {
    let mut fields = [u64::MAX; 10];
    same("what reads the request", raw::read_request(request, &mut fields), 0)?;
    let number = |record: &[u8]| read_ticket(record).map_or(0, |ticket| u32::from(ticket.number));
    let OwnedParts { kind, options, pac_options, till, .. } = *parts;
    let tickets = [number(&parts.tgt), number(&parts.evidence)];
    let numbers = [kind, options, pac_options, till, tickets[0], tickets[1]].map(u64::from);
    same("the numbers read", &fields[..6], &numbers[..])?;
    for ((at, length), (name, stands)) in [(6, 7), (8, 9)].into_iter().zip(parts.names()) {
        let (at, length) = (fields[at] as usize, fields[length] as usize);
        let read = (at != 0).then(|| request.get(at..at + length));
        same("the name read", read, stands.then_some(Some(name)))?;
    }
    same("the map", &request[..2], &(parts.map() as u16).to_be_bytes()[..])
}

/// R4.9: that the library writes a request that reads as it stands.
pub fn written_again(request: &[u8]) -> Result<(), String> {
    let Some(draft) = Draft::of(request) else {
        return Ok(());
    };
    let parts = OwnedParts::of(&draft);
    let mut output = vec![!request.last().copied().unwrap_or(0); request.len()];
    let answer = raw::write_request(&parts.lent().into(), &mut output);
    let expected = Answer { error: 0, value: request.len() as u32 };
    same("what writes the request", answer.into(), expected)?;
    same_bytes("the request written again", &output, request)
}

impl Tally {
    /// A writing to an output of this length was answered.
    fn written(&mut self, parts: &OwnedParts, output: usize, answer: Answer) {
        self.calls += 1;
        match answer.error {
            0 => {
                let length = answer.value as usize;
                self.add_all("written", granted(parts, length, output));
            }
            60 => {
                let causes: Vec<_> = causes(parts).collect();
                let cause = match causes[..] {
                    [] => NEVER,
                    [cause] => cause,
                    _ => SEVERAL,
                };
                self.add("not written 60", cause);
                if output < SHORTEST_REQUEST {
                    self.add("not written 60", SHORT_TOO);
                }
            }
            52 => self.add("not written 52", too_short(parts, output)),
            _ => self.add("written", NEVER),
        }
    }
}

/// What is counted of parts that were written as so many bytes.
fn granted(parts: &OwnedParts, length: usize, output: usize) -> impl Iterator<Item = &'static str> {
    let kinds = [NEVER, "kind 1", "kind 2", "kind 3", "kind 4"];
    let kind = kinds.get(parts.kind as usize).unwrap_or(&NEVER);
    let named = parts.names().into_iter().find(|(_, stands)| *stands).map_or(&[][..], |(n, _)| n);
    let needed = OwnedParts { fields: 0, ..parts.clone() }.map();
    holding([
        (parts.stands(OPTIONS) && parts.kind != 4, "options"),
        (parts.stands(PAC_OPTIONS), "PAC options"),
        (parts.stands(TILL), "till"),
        (parts.stands(TILL) && parts.till == 0, "till 0"),
        (needed & parts.fields != 0, "bit needed anyway"),
        (named.is_empty(), "no name"),
        (named.len() == LONGEST_COUNTED, "name of 255"),
        (output == length, "exactly as long"),
        (output > length, "longer"),
    ])
    .chain([*kind])
}

/// R4.8: why no request has these parts.
fn causes(parts: &OwnedParts) -> impl Iterator<Item = &'static str> {
    bad_heads(parts).chain(bad_parts(parts))
}

/// What is wrong with the kind and the mask.
fn bad_heads(parts: &OwnedParts) -> impl Iterator<Item = &'static str> {
    let OwnedParts { kind, fields, .. } = *parts;
    let allowed = [!0, 0x4B, 0x9B, 0x5B, 0xBF].get(kind as usize).copied().unwrap_or(!0);
    let beyond = |bits: u32| fields & bits & !allowed != 0;
    holding([
        (kind == 0, "kind 0"),
        ((5..256).contains(&kind), "kind 5 to 255"),
        (kind >= 256, "kind 256 and above"),
        (beyond(PAC_OPTIONS.into()), "PAC options bit"),
        (beyond((TGT | EVIDENCE).into()), "record's bit"),
        (beyond((USER | SERVICE).into()), "name's bit"),
        (beyond(0xFF00), "bit 8 to 15"),
        (beyond(!0xFFFF), "bit 16 to 31"),
    ])
}

/// What is wrong with what the fields of a kind are given.
fn bad_parts(parts: &OwnedParts) -> impl Iterator<Item = &'static str> {
    let is_kind = (1..=4).contains(&parts.kind);
    let given = |bit, is_given| is_kind && !parts.stands(bit) && is_given;
    let name = |test: fn(usize) -> bool| {
        parts.names().iter().any(|(name, stands)| *stands && test(name.len()))
    };
    let record = |test: fn(usize) -> bool| {
        let is_bad = |record| read_ticket(record).is_err() && test(record.len());
        parts.records().iter().any(|(record, stands)| *stands && is_bad(record))
    };
    holding([
        (given(OPTIONS, parts.options != 0), "options given"),
        (given(PAC_OPTIONS, parts.pac_options != 0), "PAC options given"),
        (given(TILL, parts.till != 0), "till given"),
        (given(TGT, !parts.tgt.is_empty()), "TGT given"),
        (given(EVIDENCE, !parts.evidence.is_empty()), "evidence given"),
        (given(USER, !parts.user.is_empty()), "user given"),
        (given(SERVICE, !parts.service.is_empty()), "service given"),
        (name(|length| length == LONGEST_COUNTED + 1), "name of 256"),
        (name(|length| length > LONGEST_COUNTED + 1), "longer name"),
        (record(|length| length == 0), "no record"),
        (record(|length| (1..17).contains(&length)), "record short"),
        (record(|length| (17..=LONGEST_RECORD).contains(&length)), "record altered"),
        (record(|length| length > LONGEST_RECORD), "record long"),
    ])
}

/// What is counted of an output that is too short for these parts.
fn too_short(parts: &OwnedParts, output: usize) -> &'static str {
    let needed = calls::write_request(&parts.lent(), &mut [0; LONGEST_REQUEST]).value as usize;
    match output {
        0 => "none",
        _ if output + 1 == needed => "one short",
        _ if output < needed => "shorter",
        _ => NEVER,
    }
}

/// The length of an output for these parts: mostly long enough, exactly so, or a byte too short.
pub fn some_output(random: &mut Random, parts: &OwnedParts) -> usize {
    let needed = calls::write_request(&parts.lent(), &mut [0; LONGEST_REQUEST]).value as usize;
    let shorter = random.below(needed.max(1));
    let lengths = [needed, needed, needed + 1, LONGEST_REQUEST, 400];
    random.pick(&[&lengths[..], &[needed.saturating_sub(1), 0, shorter]].concat())
}
