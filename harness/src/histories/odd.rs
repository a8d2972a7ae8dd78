//! Odd names, edits, tickets and bytes: what a service has to refuse, or to take though it is rare.

use super::draft::{record, Draft};
use super::{Call, OwnedParts};
use crate::accounts::Account;
use crate::limits::{ACCOUNT_LIMIT, LONGEST_COUNTED, NAME_LIMIT, TICKET_LIMIT, TRAIL_LIMIT};
use crate::random::Random;
use crate::record::{Origin, Principal, Ticket, NO_TRAIL, PAC_OPTIONS};
use crate::request_writer::{EVIDENCE, SERVICE, TGT, USER};
use crate::samples::TICKET_0;

/// The bytes at the edges of what a name may hold, and of the letters.
const EDGES: &[u8] = b"\x00\x20\x21\x3f\x40\x41\x5a\x5b\x60\x61\x7a\x7b\x7e\x7f\x80\xc1\xe1\xff";

/// The lowest number that no account has.
const BEYOND: Principal = ACCOUNT_LIMIT as Principal;

/// R2.5: a good name.
pub fn good_name(random: &mut Random) -> Vec<u8> {
    let some = 1 + random.below(NAME_LIMIT);
    let length = random.pick(&[1, 2, 7, 8, 9, 16, 17, NAME_LIMIT - 1, NAME_LIMIT, some]);
    let byte = |random: &mut Random| match 0x21 + random.below(0x5E) as u8 {
        0x40 => b'A',
        byte => byte,
    };
    (0..length).map(|_| byte(random)).collect()
}

/// The name, half the time with the case of some letters changed.
pub fn letter_case(random: &mut Random, name: &[u8]) -> Vec<u8> {
    let mut name = name.to_vec();
    if random.once_in(2) {
        let letters = name.iter_mut().filter(|byte| byte.is_ascii_alphabetic());
        letters.for_each(|byte| *byte ^= if random.once_in(2) { 0x20 } else { 0 });
    }
    name
}

/// A name that mostly matches nobody, made of this one.
pub fn name(random: &mut Random, mut name: Vec<u8>) -> Vec<u8> {
    match random.below(8) {
        0 => name.clear(),
        1 => name.push(0),
        2 => name.truncate(name.len().saturating_sub(1)),
        3 => flip(random, &mut name, &[0x20]),
        4 => flip(random, &mut name, &[0x80, 0x01]),
        5 => name.push(random.pick(EDGES)),
        6 => {
            let length =
                random.pick(&[NAME_LIMIT, NAME_LIMIT + 1, NAME_LIMIT + 2, LONGEST_COUNTED]);
            name.resize(length, b'a');
        }
        _ => name = good_name(random),
    }
    name.truncate(LONGEST_COUNTED);
    name
}

/// A name to find that mostly matches nobody, made of this one: its last byte is another, a byte that
/// is no letter has the bit of the letter case changed, a byte more stands behind it or so many that a
/// length byte would count the same, or it is odd in one of the ways above.
pub fn near_name(random: &mut Random, mut name: Vec<u8>) -> Vec<u8> {
    let length = name.len();
    match random.below(8) {
        0 | 1 => flip(random, &mut name[length.saturating_sub(1)..], &[0x01, 0x10, 0x40, 0x80]),
        2 | 3 => {
            let mut others = name.iter_mut().filter(|byte| !byte.is_ascii_alphabetic());
            if let Some(byte) = others.nth(random.below(1 + length / 4)) {
                *byte ^= 0x20;
            }
        }
        4 => {
            let more = random.pick(&[1, LONGEST_COUNTED + 1]);
            name.extend(random.bytes(more));
        }
        _ => name = self::name(random, name),
    }
    name
}

/// Changes one byte by one of these patterns.
fn flip(random: &mut Random, bytes: &mut [u8], patterns: &[u8]) {
    if !bytes.is_empty() {
        bytes[random.below(bytes.len())] ^= random.pick(patterns);
    }
}

/// Alters one part of an edit: its number, its flags or its name.
pub fn alter_edit(random: &mut Random, call: &mut Call, other: Option<&Account>) {
    let Call::Edit { number, name, flags, .. } = call else {
        return;
    };
    let beyond = u32::from(BEYOND);
    match random.below(8) {
        0 => {
            let numbers = [beyond, beyond + 1, 127, 256, 256 + *number, 1 << 31, u32::MAX];
            *number = random.pick(&numbers);
        }
        1 => *flags = random.pick(&[16, 17, 32, 128, 256, 256 + *flags, 1 << 31, u32::MAX]),
        2 => *name = self::name(random, std::mem::take(name)),
        3 => {
            let length = random.pick(&[0, NAME_LIMIT, NAME_LIMIT + 1, 32, 256, 257]);
            name.resize(length, b'x');
        }
        4 if !name.is_empty() => {
            let at = random.below(name.len());
            name[at] = random.pick(EDGES);
        }
        5 => *name = letter_case(random, name),
        _ => {
            if let Some(other) = other {
                *name = letter_case(random, other.name());
            }
        }
    }
}

/// The ticket with one field altered.
pub fn ticket(random: &mut Random, mut ticket: Ticket) -> Ticket {
    let full = TICKET_LIMIT as u16;
    match random.below(12) {
        0 => ticket.number = random.pick(&[0, 1, ticket.number ^ 1, full - 1, full, u16::MAX]),
        1 => ticket.flags ^= 1 << random.below(32),
        2 => ticket.client = random.pick(&[ticket.client ^ 1, BEYOND - 1, BEYOND, u8::MAX]),
        3 => ticket.service = random.pick(&[ticket.service ^ 1, BEYOND - 1, BEYOND, u8::MAX]),
        4 => ticket.start = ticket.start.wrapping_add(random.pick(&[1, u32::MAX])),
        5 => ticket.end = ticket.end.wrapping_add(random.pick(&[1, u32::MAX])),
        6 => ticket.barred = !ticket.barred,
        7 => ticket.trail[usize::from(ticket.hops / 2) % TRAIL_LIMIT] ^= 1,
        8 => {
            let counts = [ticket.hops ^ 1, ticket.hops.wrapping_add(1), TRAIL_LIMIT as u8];
            ticket.hops = random.pick(&counts);
        }
        9 => return other_origin(random, ticket),
        _ => ticket.origin = other_back_number(random, ticket.origin),
    }
    ticket
}

/// The origin with one back number changed.
fn other_back_number(random: &mut Random, origin: Origin) -> Origin {
    let other = |number: u16| number.wrapping_add(1);
    match origin {
        Origin::Initial => Origin::Direct { tgt: 0 },
        Origin::Direct { tgt } => Origin::Direct { tgt: other(tgt) },
        Origin::S4U2self { tgt } => Origin::S4U2self { tgt: other(tgt) },
        Origin::Delegated { tgt, evidence } if random.once_in(2) => {
            Origin::Delegated { tgt: other(tgt), evidence }
        }
        Origin::Delegated { tgt, evidence } => Origin::Delegated { tgt, evidence: other(evidence) },
    }
}

/// The ticket with another origin, and the parts that this origin needs.
fn other_origin(random: &mut Random, ticket: Ticket) -> Ticket {
    let (tgt, evidence) = match ticket.origin {
        Origin::Initial => (0, 0),
        Origin::Direct { tgt } | Origin::S4U2self { tgt } => (tgt, 0),
        Origin::Delegated { tgt, evidence } => (tgt, evidence),
    };
    let bare = Ticket { trail: NO_TRAIL, hops: 0, ..ticket };
    match random.below(4) {
        0 => Ticket { origin: Origin::Initial, service: 0, ..bare },
        1 => Ticket { origin: Origin::Direct { tgt }, ..bare },
        2 => Ticket { origin: Origin::S4U2self { tgt }, ..bare },
        _ => Ticket {
            origin: Origin::Delegated { tgt, evidence },
            hops: ticket.hops.max(1),
            ..ticket
        },
    }
}

/// The record that is nearest to a ticket that no record reads as.
pub fn nearest_record(ticket: &Ticket) -> Vec<u8> {
    let mut near = *ticket;
    match near.origin {
        Origin::Initial => (near.service, near.hops) = (0, 0),
        Origin::Delegated { .. } => near.hops = near.hops.clamp(1, TRAIL_LIMIT as u8),
        _ => near.hops = 0,
    }
    near.trail[usize::from(near.hops)..].fill(0);
    record(&near).expect("such a ticket has a record")
}

/// Alters one field of a request.
pub fn alter_draft(random: &mut Random, draft: &mut Draft) {
    match random.below(10) {
        0 => draft.map ^= 1 << random.below(16),
        1 => draft.map = random.word() as u16 & 0xFF,
        2 => draft.kind = random.pick(&[0, 1, 2, 3, 4, 5, 255]),
        3 => draft.tgt = bytes(random, std::mem::take(&mut draft.tgt)),
        4 => draft.evidence = bytes(random, std::mem::take(&mut draft.evidence)),
        5 => std::mem::swap(&mut draft.tgt, &mut draft.evidence),
        6 => draft.evidence = draft.tgt.clone(),
        7 => draft.user = name(random, std::mem::take(&mut draft.user)),
        8 => draft.service = name(random, std::mem::take(&mut draft.service)),
        _ => draft.options ^= 1 << random.below(32),
    }
}

/// Alters one part of a request that is to be written, or which fields stand.
pub fn alter_parts(random: &mut Random, parts: &mut OwnedParts) {
    let kind = parts.kind;
    match random.below(16) {
        0 => {
            let kinds = [0, 5, 5, 255, 256, 256 + kind, 1 << 16 | kind, 1 << 31 | kind, u32::MAX];
            parts.kind = random.pick(&kinds);
        }
        1 => parts.kind = 1 + random.below(4) as u32,
        2 => parts.fields ^= 1 << random.below(8),
        3 => parts.fields |= 1 << random.below(32),
        4 => parts.fields |= random.pick(&[1 << 8, 1 << 15, 1 << 16, 1 << 31, !0xFF, u32::MAX]),
        5 => parts.options ^= random.pick(&[1, 0x0002_0000, 0x4000_0000, 1 << 31]),
        6 => parts.pac_options ^= random.pick(&[1, 0x1000_0000, 1 << 31]),
        7 => parts.till ^= random.pick(&[1, 1000, 1 << 31]),
        8 => parts.till = 0,
        9 => parts.tgt = other_record(random, &parts.tgt),
        10 => parts.evidence = other_record(random, &parts.evidence),
        11 => parts.user = name_to_write(random, std::mem::take(&mut parts.user)),
        12 => parts.service = name_to_write(random, std::mem::take(&mut parts.service)),
        13 => std::mem::swap(&mut parts.user, &mut parts.service),
        _ => add_field(random, parts),
    }
}

/// Gives some field what it may have, and sets its bit, whether the kind has it or not.
fn add_field(random: &mut Random, parts: &mut OwnedParts) {
    let bit = random.pick(&[PAC_OPTIONS, TGT, EVIDENCE, USER, SERVICE]);
    parts.fields |= u32::from(bit);
    match bit {
        PAC_OPTIONS => parts.pac_options ^= random.pick(&[0, 0x1000_0000]),
        TGT => parts.tgt = TICKET_0.to_vec(),
        EVIDENCE => parts.evidence = TICKET_0.to_vec(),
        USER => parts.user = good_name(random),
        _ => parts.service = good_name(random),
    }
}

/// A record to write that is mostly none: without its bytes, cut, with more behind, or altered; and one
/// where there was none.
fn other_record(random: &mut Random, record: &[u8]) -> Vec<u8> {
    let mut other = if record.is_empty() { TICKET_0.to_vec() } else { record.to_vec() };
    match random.below(8) {
        0 => other.clear(),
        1 => other.truncate(random.below(other.len())),
        2 => other.truncate(other.len() - 1),
        3 => other.push(0),
        4 => other.resize(random.pick(&[32, 255, 256, 256 + record.len()]), 0),
        5 => {
            let at = random.below(other.len().min(2));
            other[at] ^= 1 << random.below(8);
        }
        6 => other = bytes(random, other),
        _ => {}
    }
    other
}

/// A name to write, around the lengths that a length byte can count.
fn name_to_write(random: &mut Random, mut name: Vec<u8>) -> Vec<u8> {
    let lengths = [0, 1, LONGEST_COUNTED - 1, LONGEST_COUNTED, LONGEST_COUNTED, 256, 256, 257, 300];
    name.resize(random.pick(&[&lengths[..], &[256 + name.len(), 512]].concat()), b'n');
    name
}

/// The bytes, shortened, lengthened or with some of them changed; in one of eight other bytes.
pub fn bytes(random: &mut Random, mut bytes: Vec<u8>) -> Vec<u8> {
    if bytes.is_empty() {
        return vec![0];
    }
    match random.below(8) {
        0 => bytes.truncate(random.below(bytes.len())),
        1 => bytes.truncate(bytes.len() - 1),
        2 => bytes.push(random.word() as u8),
        3 => {
            let more = random.below(40);
            bytes.extend(random.bytes(more));
        }
        4 => {
            let at = random.below(bytes.len().min(2));
            bytes[at] ^= 1 << random.below(8);
        }
        5 => {
            let at = random.below(bytes.len());
            bytes[at] ^= 1 << random.below(8);
        }
        6 => {
            let at = random.below(bytes.len());
            bytes[at] = random.below(12) as u8;
        }
        _ => {
            let count = random.below(48);
            bytes = random.bytes(count);
        }
    }
    bytes
}
