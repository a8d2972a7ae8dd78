//! The compiled library against the second implementation, on seeded random records and requests,
//! whole and altered, and on random parts of requests: answers, outputs with the bytes around them, and
//! fields; on all places of random words; and on pairs of words. And what the library says of itself.

use harness::calls::{self, Answer, RequestFields};
use harness::histories::{odd, OwnedParts};
use harness::limits::{
    ACCOUNTS_SIZE, ACCOUNT_LIMIT, LAYOUT, LEDGER_SIZE, LONGEST_RECORD, LONGEST_REQUEST, NAME_LIMIT,
    SAVED_SIZE, TICKET_LIMIT, TRAIL_LIMIT, VERSION,
};
use harness::random::Random;
use harness::record::{read_request, Kind};
use harness::request_writer::Parts;
use harness::samples::counted;
use harness::words::{self, place_at, row_at, AccountWords, LedgerWords, COUNT_AT};
use std::collections::BTreeMap;
use tickets::raw;

/// How many records are tried, and how many requests.
const TRIES: u32 = 100_000;

/// How many random pairs of words are compared.
const PAIRS: u32 = 2_000_000;

/// Where the random numbers begin.
const SEED: u64 = 0x7469_636B_6574_7331;

/// The bytes before and after an output, which no call may touch.
const MARGIN: usize = 16;

/// R3.3: the eight maps of a ticket record.
const TICKET_MAPS: [u16; 8] = [0x0037, 0x0237, 0x007F, 0x027F, 0x047F, 0x067F, 0x01FF, 0x03FF];

/// R4.2: the map bits that each kind needs, and those that it may have besides.
const REQUEST_MAPS: [(u16, u16); 4] = [(0x41, 0x0A), (0x91, 0x0A), (0x51, 0x0A), (0xB3, 0x0C)];

/// A record that reads.
fn record(random: &mut Random) -> Vec<u8> {
    let map = random.pick(&TICKET_MAPS);
    let fixed = match map & 0x01FF {
        0x0037 => 15,
        0x01FF => 20,
        _ => 18,
    };
    let mut record = [&map.to_be_bytes()[..], &random.bytes(fixed)].concat();
    if map & 0x0100 != 0 {
        let hops = 1 + random.below(TRAIL_LIMIT);
        record.extend(counted(&random.bytes(hops)));
    }
    record
}

/// A length byte and bytes, mostly few.
fn name(random: &mut Random) -> Vec<u8> {
    let most = if random.once_in(8) { u8::MAX.into() } else { NAME_LIMIT };
    let length = random.below(most + 1);
    counted(&random.bytes(length))
}

/// A request that reads, but for its tickets: one of them in sixteen is altered.
fn request(random: &mut Random) -> Vec<u8> {
    let kind = random.below(4);
    let (needed, besides) = REQUEST_MAPS[kind];
    let map = needed | random.word() as u16 & besides;
    let mut request = [&map.to_be_bytes()[..], &[kind as u8 + 1]].concat();
    for bit in (1..8).filter(|bit| map >> bit & 1 == 1) {
        request.extend(match bit {
            1..=3 => random.bytes(4),
            4 | 5 => {
                let record = record(random);
                counted(&if random.once_in(16) { odd::bytes(random, record) } else { record })
            }
            _ => name(random),
        });
    }
    request
}

/// The bytes as they are, or altered, half and half.
fn perhaps_altered(random: &mut Random, bytes: Vec<u8>) -> Vec<u8> {
    if random.once_in(2) {
        odd::bytes(random, bytes)
    } else {
        bytes
    }
}

#[test]
fn records_are_rewritten_alike() {
    let mut random = Random(SEED);
    let mut reached = [0; 61];
    for _ in 0..TRIES {
        let record = record(&mut random);
        let record = perhaps_altered(&mut random, record);
        let length = if random.once_in(2) { LONGEST_RECORD } else { random.below(64) };
        let mut by_library = random.bytes(length + 2 * MARGIN);
        let mut by_second = by_library.clone();
        let output = MARGIN..MARGIN + length;
        let answer = Answer::from(raw::rewrite(&record, &mut by_library[output.clone()]));
        assert_eq!(answer, calls::rewrite(&record, &mut by_second[output]), "{record:02x?}");
        assert_eq!(by_library, by_second, "{record:02x?}");
        reached[answer.error as usize] += 1;
    }
    println!("granted {}, 52 {}, 60 {}", reached[0], reached[52], reached[60]);
    assert!([0, 52, 60].iter().all(|&error: &usize| reached[error] > TRIES / 10));
}

#[test]
fn requests_are_read_alike() {
    let mut random = Random(!SEED);
    let mut read = [0; 5];
    for _ in 0..TRIES {
        let request = request(&mut random);
        let request = perhaps_altered(&mut random, request);
        let mut by_library: [u64; 12] = std::array::from_fn(|_| random.word());
        let mut by_second = by_library;
        let error = raw::read_request(&request, fields(&mut by_library));
        assert_eq!(error, calls::read_request(&request, fields(&mut by_second)), "{request:02x?}");
        assert_eq!(by_library, by_second, "{request:02x?}");
        read[if error == 0 { by_library[1] as usize } else { 0 }] += 1;
    }
    println!("refused {}, of kinds 1 to 4 {:?}", read[0], &read[1..]);
    assert!(read.iter().all(|&count| count > TRIES / 20));
}

/// The fields between the first and the last number, which no call may touch.
fn fields(numbers: &mut [u64; 12]) -> &mut RequestFields {
    (&mut numbers[1..11]).try_into().unwrap()
}

/// R4.9: the parts of a request that reads, its records as they stand in it.
fn parts_of(request: &[u8]) -> Option<Parts<'_>> {
    let read = read_request(request).ok()?;
    let map = u16::from_be_bytes([request[0], request[1]]);
    let mut at = 3 + 4 * (map & 0xE).count_ones() as usize;
    let mut record = || {
        let length = usize::from(request[at]);
        at += 1 + length;
        &request[at - length..at]
    };
    let (options, pac_options, till) = (read.options, read.pac_options, read.till);
    let parts = Parts { options, pac_options, till, ..Parts::default() };
    let parts = match read.kind {
        Kind::Initial { user } => Parts { kind: 1, user, ..parts },
        Kind::Direct { service, .. } => Parts { kind: 2, tgt: record(), service, ..parts },
        Kind::S4U2self { user, .. } => Parts { kind: 3, tgt: record(), user, ..parts },
        Kind::S4U2proxy { service, .. } => {
            Parts { kind: 4, tgt: record(), evidence: record(), service, ..parts }
        }
    };
    Some(Parts { fields: u32::from(map & 0xE), ..parts })
}

#[test]
fn r4_9_requests_that_read_are_written_as_they_stand() {
    let mut random = Random(SEED);
    let mut written = [0; 5];
    for _ in 0..TRIES {
        let request = request(&mut random);
        let Some(parts) = parts_of(&request) else {
            continue;
        };
        let mut output = vec![0; request.len()];
        let answer = raw::write_request(&parts.into(), &mut output);
        assert_eq!(answer.result(), Ok(request.len() as u32), "{request:02x?}");
        assert_eq!(output, request);
        written[parts.kind as usize] += 1;
    }
    println!("of kinds 1 to 4 {:?}", &written[1..]);
    assert!(written[1..].iter().all(|&count| count > TRIES / 10));
}

/// The parts of a request, owned.
fn owned(parts: &Parts) -> OwnedParts {
    let Parts { kind, options, pac_options, till, tgt, evidence, user, service, fields } = *parts;
    let [tgt, evidence, user, service] = [tgt, evidence, user, service].map(<[u8]>::to_vec);
    OwnedParts { kind, options, pac_options, till, tgt, evidence, user, service, fields }
}

#[test]
fn parts_are_written_alike() {
    let mut random = Random(SEED);
    let mut reached = [0; 61];
    for _ in 0..TRIES {
        let request = request(&mut random);
        let mut parts = parts_of(&request).map_or_else(OwnedParts::default, |parts| owned(&parts));
        for _ in 0..random.below(3) {
            odd::alter_parts(&mut random, &mut parts);
        }
        let length = random.below(LONGEST_REQUEST + 1);
        let length = random.pick(&[request.len(), request.len() - 1, LONGEST_REQUEST, length]);
        let mut by_library = random.bytes(length + 2 * MARGIN);
        let mut by_second = by_library.clone();
        let output = MARGIN..MARGIN + length;
        let parts = parts.lent();
        let answer = raw::write_request(&parts.into(), &mut by_library[output.clone()]);
        let second = calls::write_request(&parts, &mut by_second[output]);
        assert_eq!(Answer::from(answer), second, "{parts:02x?}");
        assert_eq!(by_library, by_second, "{parts:02x?}");
        reached[answer.error as usize] += 1;
    }
    println!("written {}, 52 {}, 60 {}", reached[0], reached[52], reached[60]);
    assert!([0, 52, 60].iter().all(|&error: &usize| reached[error] > TRIES / 20));
}

/// Words that are random but for lengths of names, the count of tickets, and of tickets tags, trails and
/// services, which are mostly such as calls leave.
fn some_words(random: &mut Random) -> (Box<AccountWords>, Box<LedgerWords>) {
    let mut accounts: Box<AccountWords> = Box::new(std::array::from_fn(|_| random.word()));
    let mut ledger: Box<LedgerWords> = Box::new(std::array::from_fn(|_| random.word()));
    for row in 0..ACCOUNT_LIMIT {
        let length = random.below(NAME_LIMIT + 3) as u64;
        let word = &mut accounts[row_at(row) + 3];
        *word = *word & !0xFF | length;
    }
    for place in 0..TICKET_LIMIT {
        let hops = random.below(TRAIL_LIMIT + 2) as u64;
        let tag = random.below(5) as u64;
        let service = if tag == 0 && !random.once_in(8) { 0 } else { random.below(256) as u64 };
        let words = &mut ledger[place_at(place)..];
        let hops = if tag > 2 || random.once_in(8) { hops } else { 0 };
        words[0] = words[0] & !(0x0FFF_FF00 << 32) | service << 40 | hops << 48 | tag << 56;
        let kept = if random.once_in(8) { u64::BITS } else { 8 * hops as u32 };
        words[3] &= 1u64.checked_shl(kept).map_or(u64::MAX, |bit| bit - 1);
    }
    let counts = [0, 1, 511, 512, 513, u64::MAX, random.below(TICKET_LIMIT) as u64];
    ledger[COUNT_AT] = random.pick(&counts);
    (accounts, ledger)
}

#[test]
fn accounts_of_any_words_are_read_alike() {
    let mut random = Random(SEED);
    let mut counts = [0; 3];
    for _ in 0..200 {
        let (accounts, ledger) = some_words(&mut random);
        let second = words::service(&accounts, &ledger);
        for number in (0..=300).chain([1 << 16, 1 << 31, u32::MAX]) {
            let (mut fields, mut name) = ([u64::MAX; 6], [0xEE; NAME_LIMIT]);
            let (mut others, mut other) = (fields, name);
            let error = raw::account(&accounts, number, &mut fields, &mut name);
            let answer = calls::account(&second, number, &mut others, &mut other);
            assert_eq!((error, fields, name), (answer, others, other), "account {number}");
            counts[if error == 60 { 2 } else { fields[0] as usize }] += 1;
        }
    }
    println!("{} set, {} never set, {} refused", counts[1], counts[0], counts[2]);
    assert!(counts.iter().all(|&count| count > 1_000));
}

#[test]
fn tickets_of_any_words_are_read_alike() {
    let mut random = Random(SEED);
    let mut counts = [0; 61];
    for _ in 0..200 {
        let (accounts, ledger) = some_words(&mut random);
        let second = words::service(&accounts, &ledger);
        assert_eq!(raw::held(&ledger), calls::held(&second));
        for place in (0..520).chain([1 << 16, 1 << 31, u32::MAX]) {
            let mut fields = [u64::MAX; 19];
            let mut others = fields;
            let error = raw::ticket_at(&ledger, place, &mut fields);
            assert_eq!(error, calls::ticket_at(&second, place, &mut others), "place {place}");
            assert_eq!(fields, others, "place {place}");
            let length = random.pick(&[LONGEST_RECORD, LONGEST_RECORD, LONGEST_RECORD - 1]);
            let (mut record, mut other) = ([0xEE; LONGEST_RECORD], [0xEE; LONGEST_RECORD]);
            let answer = Answer::from(raw::record_at(&ledger, place, &mut record[..length]));
            let second = calls::record_at(&second, place, &mut other[..length]);
            assert_eq!((answer, record), (second, other), "place {place}");
            counts[answer.error as usize] += 1;
        }
    }
    println!("{} records, 41 {}, 52 {}, 60 {}", counts[0], counts[41], counts[52], counts[60]);
    assert!([0, 41, 52, 60].iter().all(|&error: &usize| counts[error] > 1_000));
}

#[test]
fn r6_8_errors_have_their_names() {
    for number in (0..1_000).chain([1 << 16 | 13, u32::MAX]) {
        assert_eq!(tickets::error_name(number), calls::error_name(number), "{number}");
    }
    assert_eq!(tickets::Error::KDC_ERR_BADOPTION.name(), Some("KDC_ERR_BADOPTION"));
    assert_eq!(tickets::Error::KRB_ERR_FIELD_TOOLONG.number(), 61);
}

#[test]
fn the_library_is_of_this_version_and_layout() {
    assert_eq!((raw::version(), raw::layout()), (VERSION, LAYOUT));
    assert_eq!((tickets::VERSION, tickets::LAYOUT), (VERSION, LAYOUT));
    let sizes = [tickets::ACCOUNTS, tickets::LEDGER, tickets::SAVED, tickets::LONGEST_REQUEST];
    assert_eq!(sizes, [ACCOUNTS_SIZE, LEDGER_SIZE, SAVED_SIZE, LONGEST_REQUEST]);
}

/// Bytes at the edges of the letters, and of what a sum or a difference keeps inside a byte.
const EDGES: &[u8] =
    b"\x00\x01\x1f\x20\x3f\x40\x5b\x5f\x60\x7b\x7f\x80\x9f\xc1\xda\xdf\xe0\xe1\xfa\xff";

/// Bytes from which a sum, or a difference, goes over into the byte above them.
const CARRYING: &[u8] = b"\x00\x01\x7f\x80\xdf\xff";

/// What is counted of the random pairs of words.
const COUNTED: [&str; 6] = [
    "equal",
    "by letter case",
    "not, by 0x20 alone",
    "not, by another bit",
    "beside a carry",
    "not, beside a carry",
];

/// R2.6: whether two bytes match.
fn bytes_match(one: u8, other: u8) -> bool {
    one == other || one ^ other == 0x20 && (0x41..=0x5A).contains(&one.min(other))
}

/// That both sides give this answer for two words.
fn assert_words(a: u64, b: u64, matching: bool) {
    let answers = [raw::words_match(a, b), calls::words_match(a, b)];
    assert_eq!(answers, [matching.into(); 2], "{a:#018x} and {b:#018x}");
}

#[test]
fn all_pairs_of_bytes_match_alike_at_all_places() {
    let mut random = Random(SEED);
    let mut matching = 0;
    for pair in 0..=u16::MAX {
        let [one, other] = pair.to_be_bytes();
        for place in 0..8 {
            let mut a = random.word().to_le_bytes();
            let mut b = a;
            (a[place], b[place]) = (one, other);
            let matches = bytes_match(one, other);
            assert_words(u64::from_le_bytes(a), u64::from_le_bytes(b), matches);
            matching += u32::from(matches);
        }
    }
    assert_eq!(
        matching,
        8 * (256 + 2 * 26),
        "each byte and itself, each letter and its other case"
    );
}

#[test]
fn r11_8_words_match_alike() {
    assert_words(0x2000_0000_0062_6557, 0x2000_0000_0042_6577, true);
    for place in 0..8 {
        let at = |byte: u64| byte << (8 * place);
        for (one, other) in [(0x40, 0x60), (0x5B, 0x7B), (0xC1, 0xE1), (0x00, 0x20)] {
            assert_words(at(one), at(other), false);
        }
        for (one, other) in [(0x41, 0x61), (0x5A, 0x7A)] {
            assert_words(at(one), at(other), true);
        }
    }
}

/// Eight bytes: letters, edges, and any.
fn some_bytes(random: &mut Random) -> [u8; 8] {
    std::array::from_fn(|_| match random.below(8) {
        0..=3 => b'a' + random.below(26) as u8,
        4 | 5 => random.pick(EDGES),
        6 => b'A' + random.below(26) as u8,
        _ => random.word() as u8,
    })
}

/// The bytes with the bit of the letter case changed in some of them, mostly in letters alone; once in
/// eight times with another bit changed too.
fn nearly(random: &mut Random, mut bytes: [u8; 8]) -> [u8; 8] {
    let any = random.once_in(3);
    for byte in bytes.iter_mut().filter(|byte| any || byte.is_ascii_alphabetic()) {
        *byte ^= random.pick(&[0, 0, 0x20]);
    }
    if random.once_in(8) {
        bytes[random.below(8)] ^= 1 << random.below(8);
    }
    bytes
}

/// Whether bytes differ right above one from which a sum or a difference may go over into them.
fn is_beside_a_carry(a: &[u8; 8], b: &[u8; 8]) -> bool {
    (1..8).any(|place| a[place] != b[place] && CARRYING.contains(&a[place - 1]))
}

/// What is counted of a pair of words.
fn counted_as(a: &[u8; 8], b: &[u8; 8], matches: bool) -> Vec<&'static str> {
    let apart_by_20 = a.iter().zip(b).all(|(one, other)| matches!(one ^ other, 0 | 0x20));
    let first = match (matches, a == b) {
        (true, true) => "equal",
        (true, false) => "by letter case",
        (false, _) if apart_by_20 => "not, by 0x20 alone",
        (false, _) => "not, by another bit",
    };
    let beside = if matches { "beside a carry" } else { "not, beside a carry" };
    let beside = is_beside_a_carry(a, b).then_some(beside);
    [Some(first), beside].into_iter().flatten().collect()
}

#[test]
fn words_match_alike() {
    let mut random = Random(SEED);
    let mut counts = BTreeMap::new();
    for _ in 0..PAIRS {
        let a = some_bytes(&mut random);
        let b = nearly(&mut random, a);
        let matches = a.iter().zip(b).all(|(one, other)| bytes_match(*one, other));
        assert_words(u64::from_le_bytes(a), u64::from_le_bytes(b), matches);
        for name in counted_as(&a, &b, matches) {
            *counts.entry(name).or_insert(0) += 1;
        }
    }
    println!("{counts:?}");
    assert!(COUNTED.iter().all(|name| counts.get(name).is_some_and(|&count| count >= 100)));
}
