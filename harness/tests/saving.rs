//! Saved services of the compiled library (R7.8 to R7.10): the bytes of R11.11, every byte altered, pairs
//! of bytes altered, and what is loaded all the same.

use harness::histories::{edit_of, filled, fresh_over, generate, Call};
use harness::limits::SAVED_SIZE;
use harness::random::Random;
use harness::saving::{self, put_check_sum, FIRST_HALF_AT, WORDS_AT};
use tickets::{raw, Service};

/// Where the random numbers begin.
const SEED: u64 = 0x7361_7665_0000_0000;

/// How many pairs of bytes are altered.
const PAIRS: u32 = 5_000;

/// The bytes of a saved service, by both sides.
fn saved(service: &Service) -> Vec<u8> {
    let bytes = service.to_saved();
    let mut second = vec![0; SAVED_SIZE];
    let length = saving::save(&service.accounts, &service.ledger, &mut second);
    assert_eq!((length, bytes == second), (Ok(SAVED_SIZE), true));
    bytes
}

/// A service whose words are all random.
fn some_service(random: &mut Random) -> Box<Service> {
    let mut service = Box::new(filled(0));
    let words = service.accounts.iter_mut().chain(&mut service.ledger);
    words.for_each(|word| *word = random.word());
    service
}

/// The services that are saved: a fresh one, one that calls made, and one of random words.
fn services() -> [Box<Service>; 3] {
    let mut made = Box::new(fresh_over(u64::MAX));
    let history = (SEED..).map(generate).find(|history| history.start.is_none());
    for call in history.expect("a history from a fresh service").calls {
        if let Call::Request { request, clock, .. } = call {
            let _ = made.request(&request, clock);
        } else if let Some(edit) = edit_of(&call) {
            let _ = made.edit(&edit.into());
        }
    }
    assert!(made.held() > 10);
    [Box::new(fresh_over(7)), made, some_service(&mut Random(SEED))]
}

/// Memory that a loading meets, and a copy of it.
struct Memory {
    service: Box<Service>,
    before: Box<Service>,
}

impl Memory {
    /// Memory of random words.
    fn new() -> Self {
        let before = some_service(&mut Random(!SEED));
        Self { service: before.clone(), before }
    }

    /// Loads bytes that have to be refused, and to leave all words.
    fn refuses(&mut self, bytes: &[u8], what: impl Fn() -> String) {
        let Service { accounts, ledger } = &mut *self.service;
        assert_eq!(raw::load(accounts, ledger, bytes), 60, "{}", what());
        assert!(self.service == self.before, "{}: the words", what());
    }
}

#[test]
fn r11_11_a_fresh_service() {
    let mut expected = b"\x89TICKETS\0\0\0\0\0\0\0\x03".to_vec();
    expected.resize(FIRST_HALF_AT, 0);
    expected.extend(b"\0\0\0\0\0\0\x02\xa3\0\0\0\0\0\0\x0b\x41");
    assert!(saved(&Service::fresh()) == expected);
    let mut memory = Memory::new();
    let with = |changes: &[(usize, u8)]| {
        let mut bytes = expected.clone();
        changes.iter().for_each(|&(at, byte)| bytes[at] = byte);
        bytes
    };
    let (word, last) = ((16, 0x01), (SAVED_SIZE - 1, 0x42));
    for bytes in [with(&[word]), with(&[last]), with(&[word, last])] {
        memory.refuses(&bytes, || String::from("a fresh service, altered"));
    }
    memory.refuses(&expected[..SAVED_SIZE - 1], || String::from("without the last byte"));
    memory.refuses(&[&expected[..], &[0]].concat(), || String::from("with a byte behind"));
    memory.refuses(&[], || String::from("no bytes"));
    assert_eq!(memory.service.load(&expected), Ok(()));
    assert!(*memory.service == filled(0), "a fresh service is loaded");
}

#[test]
fn r7_9_what_was_saved_is_loaded_word_for_word() {
    let mut random = Random(SEED);
    let others = (0..200).map(|_| some_service(&mut random)).collect::<Vec<_>>();
    for service in services().into_iter().chain(others) {
        let bytes = saved(&service);
        let mut memory = Memory::new();
        assert_eq!(memory.service.load(&bytes), Ok(()));
        assert!(memory.service == service, "the words that were saved");
        assert!(saved(&memory.service) == bytes, "the bytes that were loaded");
    }
}

#[test]
fn r7_10_every_byte_altered_is_60() {
    let mut random = Random(SEED);
    let mut memory = Memory::new();
    for service in services() {
        let mut bytes = saved(&service);
        for at in 0..SAVED_SIZE {
            let byte = bytes[at];
            for other in [byte ^ 0x01, byte ^ 0x80, byte.wrapping_add(2 + random.below(96) as u8)] {
                bytes[at] = other;
                memory.refuses(&bytes, || format!("byte {at} is {other}, not {byte}"));
            }
            bytes[at] = byte;
        }
        assert_eq!(memory.service.clone().load(&bytes), Ok(()), "all bytes as they were saved");
    }
}

/// Adds this to two bytes, which have to be refused, and takes it off again.
fn refuses_pair(memory: &mut Memory, bytes: &mut [u8], at: [usize; 2], add: [u8; 2]) {
    let before = at.map(|at| bytes[at]);
    for (at, add) in at.into_iter().zip(add) {
        bytes[at] = bytes[at].wrapping_add(add);
    }
    memory.refuses(bytes, || format!("{add:?} added at {at:?}"));
    for (at, byte) in at.into_iter().zip(before) {
        bytes[at] = byte;
    }
}

#[test]
fn r7_10_two_bytes_altered_are_60() {
    let mut random = Random(SEED);
    let mut memory = Memory::new();
    for service in services() {
        let mut bytes = saved(&service);
        // One more and one less beside each other, which leaves the sum of all bytes.
        for at in 0..SAVED_SIZE - 1 {
            refuses_pair(&mut memory, &mut bytes, [at, at + 1], [1, 0xFF]);
        }
        for _ in 0..PAIRS {
            let (one, other) = (random.below(SAVED_SIZE), random.below(SAVED_SIZE - 1));
            let other = if other < one { other } else { other + 1 };
            let (add, some) = (1 + random.below(255) as u8, 1 + random.below(255) as u8);
            refuses_pair(&mut memory, &mut bytes, [one, other], [add, some]);
            refuses_pair(&mut memory, &mut bytes, [one, other], [add, add.wrapping_neg()]);
            // The first half's last byte, or the second half's, goes along with a byte of the words.
            let word = random.below(FIRST_HALF_AT);
            refuses_pair(&mut memory, &mut bytes, [word, FIRST_HALF_AT + 7], [add, add]);
            let place = (word as u8).wrapping_add(1);
            let weighed = add.wrapping_mul(place);
            if weighed != 0 {
                refuses_pair(&mut memory, &mut bytes, [word, SAVED_SIZE - 1], [add, weighed]);
            }
        }
        assert_eq!(memory.service.clone().load(&bytes), Ok(()), "all bytes as they were saved");
    }
}

#[test]
fn r7_9_another_magic_or_layout_is_60_with_its_own_check_sum() {
    let mut memory = Memory::new();
    for service in services() {
        for (at, add) in (0..WORDS_AT).flat_map(|at| [1, 0x80, 0xFF].map(|add| (at, add))) {
            let mut bytes = saved(&service);
            bytes[at] = bytes[at].wrapping_add(add);
            put_check_sum(bytes.as_mut_slice().try_into().expect("as many bytes as are saved"));
            memory.refuses(&bytes, || format!("{add} added at {at}"));
        }
    }
}

#[test]
fn r7_9_three_bytes_may_make_another_service() {
    let mut service = Box::new(fresh_over(7));
    service.ledger[2183] = 0x0202_0202_0202_0202;
    let mut bytes = saved(&service);
    // One more, two less, one more: both sums stay.
    for (at, add) in [(FIRST_HALF_AT - 8, 1), (FIRST_HALF_AT - 7, 0xFE), (FIRST_HALF_AT - 6, 1)] {
        bytes[at] = bytes[at].wrapping_add(add);
    }
    let mut memory = Memory::new();
    assert_eq!(memory.service.load(&bytes), Ok(()));
    assert_eq!(memory.service.ledger[2183], 0x0300_0302_0202_0202);
}

#[test]
fn r7_8_outputs_of_all_lengths() {
    let [.., service] = services();
    let bytes = saved(&service);
    for length in [0, 1, 8, 4_096, SAVED_SIZE - 1, SAVED_SIZE, SAVED_SIZE + 1, SAVED_SIZE + 4_096] {
        let mut output = vec![0xEE; length];
        let answer = raw::save(&service.accounts, &service.ledger, &mut output);
        let written = if length < SAVED_SIZE { 0 } else { SAVED_SIZE };
        let error = if length < SAVED_SIZE { 52 } else { 0 };
        assert_eq!((answer.error, answer.value as usize), (error, written), "{length} bytes");
        assert!(output[..written] == bytes[..written], "{length} bytes");
        assert!(output[written..].iter().all(|&byte| byte == 0xEE), "{length} bytes");
    }
}
