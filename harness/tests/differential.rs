//! The compiled library against the second implementation, on seeded histories of edits, finds, requests,
//! clearings, readings, writings of requests, savings and loadings: answers, outputs with the bytes around
//! them, all words, descents, day totals, and the plain book (R8.1 to R9.8); and on one history that uses
//! up all numbers.

use harness::histories::{run, run_one, Call, History, Tally};
use harness::limits::{LAST_NUMBER, LONGEST_RECORD, TICKET_LIMIT};
use harness::samples::w1;
use std::thread;
use std::time::Instant;

/// The first seeds, one for each thread.
const SEEDS: [u64; 2] = [0x7469_636B_0000_0000, 0x7469_636B_8000_0000];

/// How many calls each thread makes at least.
const CALLS: u64 = 1_000_000;

/// After how many of them, at least, all descents are compared each time.
const IN_FULL: u64 = 500_000;

#[test]
fn both_sides_answer_alike() {
    let start = Instant::now();
    let threads = SEEDS.map(|seed| thread::spawn(move || run(seed, CALLS, IN_FULL)));
    let mut tally = Tally::default();
    for thread in threads {
        match thread.join().expect("a history runs to its end") {
            Ok(counts) => tally.join(counts),
            Err(difference) => panic!("{difference}"),
        }
    }
    println!("{tally}  in {:.0} seconds", start.elapsed().as_secs_f64());
    let missing = tally.missing();
    assert!(missing.is_empty(), "reached too seldom: {missing:?}");
}

/// R5.10: a day on which every number is given: W1 each second, with a lifetime of 256 seconds, and a
/// clearing after each 256 of them, so that the ledger never fills; and at the end requests for which
/// no number is left, before and after a clearing.
fn all_numbers() -> History {
    let (name, lifetime) = (b"web".to_vec(), TICKET_LIMIT as u32 / 2);
    let edit = Call::Edit { number: 1, name, flags: 12, send: 4, receive: 0, lifetime };
    let ask = |clock| Call::Request { request: w1(), clock, output: LONGEST_RECORD };
    let mut calls = vec![edit];
    for clock in 0..=u32::from(LAST_NUMBER) {
        if clock % lifetime == 0 {
            calls.push(Call::Clear { clock });
        }
        calls.push(ask(clock));
    }
    for clock in [LAST_NUMBER.into(), 70_000] {
        calls.extend([ask(clock), Call::Clear { clock }, ask(clock)]);
    }
    History { seed: 0, start: None, calls }
}

#[test]
fn all_numbers_are_given_and_then_none() {
    let mut tally = Tally::default();
    run_one(all_numbers(), TICKET_LIMIT, &mut tally).unwrap_or_else(|error| panic!("{error}"));
    let granted = u64::from(LAST_NUMBER) + 2;
    assert_eq!(tally.granted, granted, "an edit, and as many grants as there are numbers");
    assert_eq!(tally.unexpected(), [""; 0]);
}
