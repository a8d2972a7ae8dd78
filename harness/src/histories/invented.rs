//! Words that no calls make: invented from random numbers, or those of a service with some changed.

use super::filled;
use crate::limits::{
    ACCOUNTS_SIZE, ACCOUNT_LIMIT, CLOCK_SKEW, LAST_NUMBER, LAST_SECOND, LEDGER_SIZE, NAME_LIMIT,
    PLACE_SIZE, ROW_SIZE, TICKET_LIMIT, TRAIL_LIMIT,
};
use crate::random::Random;
use crate::service::Service;
use crate::words::{
    number, place_at, put_number, row_at, store_account, store_ticket, COUNT_AT, NEXT_AT,
};

/// How many seconds before now the first of the invented tickets start and end.
const BEFORE: u32 = 1_000;

/// The limits as bytes, and as a word.
const TRAIL: u8 = TRAIL_LIMIT as u8;
const NAME: u8 = NAME_LIMIT as u8;
const ACCOUNT: u8 = ACCOUNT_LIMIT as u8;
const TICKETS: u64 = TICKET_LIMIT as u64;

/// The bits of a word.
const WORD_BITS: usize = u64::BITS as usize;

/// Bytes for the fields of one byte: those that a field may have, and their neighbours.
#[rustfmt::skip]
const BYTES: [u8; 16] = [
    0, 1, 2, 3, 4, 5, TRAIL - 1, TRAIL, TRAIL + 1,
    NAME - 1, NAME, NAME + 1, ACCOUNT - 1, ACCOUNT, 128, 255,
];

/// A time at which many of the invented tickets are valid: an early one, or one so late that its sum
/// with the allowance may be past the last second.
pub fn time(random: &mut Random) -> u32 {
    let late = LAST_SECOND - random.below(2 * CLOCK_SKEW as usize) as u32;
    random.pick(&[BEFORE, BEFORE, late])
}

/// Random words: all of them, few of them, or such as stand for plausible accounts and tickets, many of
/// these valid now.
pub fn words(random: &mut Random, now: u32) -> Box<tickets::Service> {
    let mut words = Box::new(filled(0));
    match random.below(8) {
        0 => each(&mut words, |word| *word = random.word()),
        1 => each(&mut words, |word| *word = if random.once_in(8) { random.word() } else { 0 }),
        2 => chain(random, now, &mut words),
        _ => plausible(random, now, &mut words),
    }
    if random.once_in(3) {
        words.ledger[COUNT_AT] = random.below(TICKET_LIMIT) as u64;
    }
    words.ledger[NEXT_AT] = next_number(random);
    words
}

/// A next number: small, so that it may be held already, near the last that is given, or past it.
fn next_number(random: &mut Random) -> u64 {
    let last = u64::from(LAST_NUMBER);
    let small = random.below(TICKET_LIMIT) as u64;
    match random.below(8) {
        0..=3 => small,
        4 => random.below(last as usize) as u64,
        5 | 6 => last - 5 + random.below(11) as u64,
        _ => random.pick(&[last + 1, 1 << 32, (1 << 32) + small, 1 << 63, u64::MAX]),
    }
}

/// Plausible words whose tickets mostly go back to the one before them.
fn chain(random: &mut Random, now: u32, words: &mut tickets::Service) {
    plausible(random, now, words);
    for place in 0..TICKET_LIMIT {
        put_number(&mut words.ledger, place, place as u16);
        if place > 0 && !random.once_in(200) {
            let back = place as u64 - 1;
            let tag = random.pick(&[1, 2, 3]);
            let words = &mut words.ledger[place_at(place)..];
            words[0] = words[0] & !(0xF << 56) | tag << 56;
            words[2] = back << 32 | back << 48;
        }
    }
}

/// Does the same to every word.
fn each(words: &mut tickets::Service, mut change: impl FnMut(&mut u64)) {
    words.accounts.iter_mut().chain(&mut words.ledger).for_each(&mut change);
}

/// Accounts with names of few letters, mostly short and some of them the same, and bytes behind them;
/// and tickets whose parts are small numbers, but for times, which are near now.
fn plausible(random: &mut Random, now: u32, words: &mut tickets::Service) {
    for row in words.accounts[row_at(0)..].chunks_exact_mut(ROW_SIZE) {
        let words = random.pick(&[1, 1, 3]);
        for word in &mut row[..words] {
            *word = u64::from_le_bytes([(); 8].map(|()| random.pick(b"abAB[{@\x00\xE1")));
        }
        let lengths = [0, 1, 2, 3, 4, 5, 6, 7, 8, 9, 16, 17, NAME, NAME + 1, u8::MAX];
        let length = random.pick(&lengths);
        let flags = random.pick(&[8, 8, 12, 12, 10, 9, 0, 0xF8]);
        let spare = if random.once_in(4) { random.word() & 0xFFFF_0000 } else { 0 };
        row[3] = u64::from(length) | flags << 8 | spare | random.pick(&[0, 100, 36_000]) << 32;
        row[4] = random.word();
        row[5] = random.word();
    }
    let numbers = random.pick(&[8, 64, TICKET_LIMIT, TICKET_LIMIT]);
    let accounts = random.pick(&[4, 8, 16, ACCOUNT_LIMIT]);
    let counts =
        [TICKETS - 1, TICKETS, TICKETS + 1, TICKETS + 256, 1_000, 1 << 16, 1 << 32, u64::MAX];
    // One ticket in so many, or none, ends at 0 or at the last second.
    let edges = random.pick(&[64, usize::MAX]);
    words.ledger[COUNT_AT] = random.pick(&counts);
    for place in 0..TICKET_LIMIT {
        put_number(&mut words.ledger, place, random.below(numbers) as u16);
        let place = &mut words.ledger[place_at(place)..][..PLACE_SIZE];
        plausible_ticket(random, numbers, accounts, place);
        place[1] = plausible_times(random, now);
        if random.once_in(edges) {
            place[1] = u64::from(place[1] as u32) | random.pick(&[0, LAST_SECOND.into()]) << 32;
        }
    }
}

/// The word of a start and an end near now; those that would be past the last second are at it.
fn plausible_times(random: &mut Random, now: u32) -> u64 {
    let mut time = |seconds: u32| {
        let later = random.below(seconds as usize) as u32;
        u64::from(now.saturating_sub(BEFORE).saturating_add(later))
    };
    time(2 * BEFORE) | time(4 * BEFORE) << 32
}

/// A ticket without its times, whose back numbers and accounts are below these; one account in sixteen
/// is beyond the limit.
fn plausible_ticket(random: &mut Random, numbers: usize, accounts: usize, words: &mut [u64]) {
    let mut number = |limit: usize| random.below(limit) as u64;
    let (tgt, evidence) = (number(numbers), number(numbers));
    let beyond = u64::from(ACCOUNT);
    let mut account = || if number(16) == 0 { beyond + number(4) } else { number(accounts) };
    let (client, service) = (account(), account());
    let spare = if number(8) == 0 { number(1 << 32) } else { 0 };
    let tag = random.pick(&[0, 0, 0, 1, 2, 3, 3, 4, 15]);
    let service = if tag == 0 && !random.once_in(8) { 0 } else { service };
    let mark = random.pick(&[0, 0, 1, 1, 2, 15]);
    let counts = [0, 1, 2, TRAIL - 1, TRAIL - 1, TRAIL, TRAIL, TRAIL + 1, u8::MAX];
    let hops = u64::from(if tag > 2 { random.pick(&counts) } else { 0 });
    let kept = if random.once_in(8) { u64::BITS } else { 8 * hops.min(TRAIL.into()) as u32 };
    let flags = random.pick(&[0x4000_0000, 0x4000_0000, 0x0040_0000, 0, 0xFFFF_FFFF]);
    words[0] = flags | client << 32 | service << 40 | hops << 48 | tag << 56 | mark << 60;
    words[2] = tgt << 32 | evidence << 48 | spare;
    words[3] =
        random.word() & 0x3F3F_3F3F_3F3F_3F3F & 1u64.checked_shl(kept).map_or(!0, |bit| bit - 1);
}

/// The words of a service, with some of them changed, and its next number or some other.
pub fn changed(random: &mut Random, service: &Service) -> Box<tickets::Service> {
    let mut words = Box::new(filled(0));
    for (number, row) in service.table.rows.iter().enumerate() {
        if let Some(account) = row {
            store_account(&mut words.accounts, number, account);
        }
    }
    service.held().iter().for_each(|ticket| store_ticket(&mut words.ledger, ticket));
    words.ledger[NEXT_AT] = if random.once_in(3) { next_number(random) } else { service.next };
    let count = service.held().len().max(1);
    if random.once_in(3) {
        let changes = random.pick(&[1, 4, 24, 100, 400]);
        (0..changes).for_each(|_| change(random, &mut words, count));
    } else {
        change_half(random, &mut words, count);
    }
    words
}

/// The same change of every other ticket: its mark, FORWARDABLE, its client or service to one beyond
/// the limit, start for end, or its tag; some of these more often than others.
fn change_half(random: &mut Random, words: &mut tickets::Service, count: usize) {
    let kind = random.pick(&[0, 0, 0, 1, 2, 2, 3, 4, 4, 4, 5]);
    for place in words.ledger[place_at(0)..].chunks_exact_mut(PLACE_SIZE).take(count) {
        match kind {
            _ if random.once_in(2) => {}
            0 => place[0] ^= 1 << 60,
            1 => place[0] ^= 0x4000_0000,
            2 => place[0] |= u64::from(ACCOUNT) << 32,
            3 => place[0] |= u64::from(ACCOUNT) << 40,
            4 => place[1] = place[1].rotate_left(32),
            _ => place[0] ^= random.pick(&[1, 2, 3, 4]) << 56,
        }
    }
}

/// One change: of a row, of a place that is held, of both, or of the count.
fn change(random: &mut Random, words: &mut tickets::Service, count: usize) {
    let account = row_at(random.below(ACCOUNT_LIMIT));
    let (held, other) = (random.below(count), random.below(count));
    let place = place_at(held);
    match random.below(13) {
        0 => words.accounts[random.below(ACCOUNTS_SIZE)] = random.word(),
        1 => words.ledger[1 + random.below(LEDGER_SIZE - 1)] = random.word(),
        2 => words.accounts[account + random.below(ROW_SIZE)] ^= 1 << random.below(WORD_BITS),
        3 => words.ledger[place + random.below(PLACE_SIZE)] ^= 1 << random.below(WORD_BITS),
        4 => {
            let from = row_at(random.below(ACCOUNT_LIMIT));
            words.accounts.copy_within(from..from + ROW_SIZE, account);
        }
        5 => {
            let number = number(&words.ledger, other);
            put_number(&mut words.ledger, held, number);
            words.ledger.copy_within(place_at(other)..place_at(other) + PLACE_SIZE, place);
        }
        6 => words.ledger[COUNT_AT] = stored_count(random, count),
        7 => put_byte(random, &mut words.accounts[account + 3], &[0, 1, 2, 3]),
        8 => put_byte(random, &mut words.ledger[place + 2], &[0, 1, 2, 3, 4, 5, 6, 7]),
        9 => put_byte(random, &mut words.ledger[place], &[4, 5]),
        10 => put_byte(random, &mut words.ledger[place], &[6, 7]),
        11 => {
            let mut number = number(&words.ledger, held).into();
            put_byte(random, &mut number, &[0, 1]);
            put_number(&mut words.ledger, held, number as u16);
        }
        _ => words.ledger[place] ^= 1 << 60,
    }
}

/// A stored count: near the true one, near the limit, or far above it.
fn stored_count(random: &mut Random, count: usize) -> u64 {
    let count = count as u64;
    let near = [count - 1, count + 1, 0, TICKETS - 1, TICKETS, TICKETS + 1];
    let far = [TICKETS + 256, 1 << 16, 1 << 32, u64::MAX];
    random.pick(&[&near[..], &far].concat())
}

/// Sets one of the bytes of a word.
fn put_byte(random: &mut Random, word: &mut u64, places: &[u32]) {
    let at = 8 * random.pick(places);
    *word = *word & !(0xFF << at) | u64::from(random.pick(&BYTES)) << at;
}
