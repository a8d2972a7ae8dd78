//! Properties of the compiled library that need no second implementation: the same calls have the
//! same answers, whatever else memory holds.

use harness::accounts::Edit;
use harness::histories::{edit_of, filled, fresh_over, generate, odd, Call, History, OwnedParts};
use harness::limits::{
    ACCOUNT_LIMIT, HEADER_SIZE, LONGEST_RECORD, LONGEST_REQUEST, NAME_LIMIT, ROW_SIZE, SAVED_SIZE,
    TICKET_LIMIT,
};
use harness::random::Random;
use harness::words::{self, row_at, AccountWords, COUNT_AT, NEXT_AT};
use std::collections::HashSet;
use std::ops::{Deref, DerefMut, Range};
use tickets::raw::{self, find_name, words_match};
use tickets::{Account, Error, ReadRequest, Service, Ticket};

/// Where the seeds of the histories begin, and how many there are.
const SEED: u64 = 0x7072_6F70_0000_0000;
const HISTORIES: u64 = 200;

/// What a call answered: the error number, of a find the account, or of a clearing how many it took out;
/// and the bytes that it wrote, of numbers their bytes.
type Reply = (u32, Vec<u8>);

/// A service, and the bytes that were saved of it last.
#[derive(Clone, PartialEq)]
struct Kept {
    service: Box<Service>,
    saved: Vec<u8>,
}

impl Kept {
    /// A service of which nothing was saved but what it begins with.
    fn new(service: Service) -> Self {
        Self { saved: service.to_saved(), service: Box::new(service) }
    }
}

impl Deref for Kept {
    type Target = Service;

    fn deref(&self) -> &Service {
        &self.service
    }
}

impl DerefMut for Kept {
    fn deref_mut(&mut self) -> &mut Service {
        &mut self.service
    }
}

/// The error number of a result, 0 for none.
fn number<T>(result: Result<T, Error>) -> u32 {
    result.map_or_else(Error::number, |_| 0)
}

/// Makes a call.
fn make(kept: &mut Kept, call: &Call, random: &mut Random) -> Reply {
    match call {
        Call::Edit { .. } => {
            let edit = edit_of(call).expect("an edit");
            (number(kept.edit(&edit.into())), Vec::new())
        }
        Call::Find { name } => (find_among(&kept.accounts, name, random), Vec::new()),
        Call::Request { request, clock, output } => ask(kept, request, *clock, *output, random),
        Call::Clear { clock } => (kept.clear(*clock), Vec::new()),
        Call::Account { number } => read_account(kept, *number),
        Call::Look { place, output } => look(kept, *place, *output, random),
        Call::Write { parts, output } => write(parts, *output, random),
        Call::Save { output } => {
            let reply = save(kept, *output, random);
            if reply.0 == 0 {
                kept.saved = reply.1.clone();
            }
            reply
        }
        Call::Load { damage } => {
            let (bytes, place) = among(&damage.done_to(&kept.saved), random);
            (number(kept.load(&bytes[place])), Vec::new())
        }
    }
}

/// Makes a call with an output among random bytes. Bytes behind what it says it wrote, all of them on a
/// refusal, have to stay as they are.
fn put_out(
    length: usize,
    random: &mut Random,
    call: impl FnOnce(&mut [u8]) -> raw::Answer,
) -> Reply {
    let before = random.bytes(length + 16);
    let mut after = before.clone();
    let answer = call(&mut after[..length]);
    let written = answer.value as usize;
    assert_eq!(after[written..], before[written..], "bytes that are not the output's");
    (answer.error, after[..written].to_vec())
}

/// Reads an account; its numbers and its name are the reply's bytes.
fn read_account(service: &Service, number: u32) -> Reply {
    let (mut fields, mut name) = ([u64::MAX; 6], [0xEE; NAME_LIMIT]);
    let error = raw::account(&service.accounts, number, &mut fields, &mut name);
    (error, fields.iter().flat_map(|field| field.to_be_bytes()).chain(name).collect())
}

/// Looks at a place; the record and the numbers are the reply's bytes.
fn look(service: &Service, place: u32, output: usize, random: &mut Random) -> Reply {
    let mut fields = [u64::MAX; 19];
    let error = raw::ticket_at(&service.ledger, place, &mut fields);
    let record = put_out(output, random, |output| raw::record_at(&service.ledger, place, output));
    let numbers = [error, record.0, service.held()].map(u64::from).into_iter().chain(fields);
    (error, numbers.flat_map(u64::to_be_bytes).chain(record.1).collect())
}

/// Writes a request.
fn write(parts: &OwnedParts, output: usize, random: &mut Random) -> Reply {
    put_out(output, random, |output| raw::write_request(&parts.lent().into(), output))
}

/// Saves a service.
fn save(service: &Service, output: usize, random: &mut Random) -> Reply {
    put_out(output, random, |output| raw::save(&service.accounts, &service.ledger, output))
}

/// The bytes at some place among random bytes: all of them, and where these stand.
fn among(bytes: &[u8], random: &mut Random) -> (Vec<u8>, Range<usize>) {
    let at = random.below(16);
    let mut all = random.bytes(at + bytes.len() + 16);
    all[at..][..bytes.len()].copy_from_slice(bytes);
    (all, at..at + bytes.len())
}

/// Finds a name that stands at some place among random bytes.
fn find_among(accounts: &AccountWords, name: &[u8], random: &mut Random) -> u32 {
    let (all, place) = among(name, random);
    find_name(accounts, &all[place])
}

/// Makes a request; its buffers stand at some place among random bytes.
fn ask(
    service: &mut Service,
    request: &[u8],
    clock: u32,
    output: usize,
    random: &mut Random,
) -> Reply {
    let (given, place) = among(request, random);
    let Service { accounts, ledger } = service;
    put_out(output, random, |output| raw::request(accounts, ledger, &given[place], clock, output))
}

/// Makes all calls of a history, and gives the replies.
fn make_all(service: &mut Kept, calls: &[Call], random: &mut Random) -> Vec<Reply> {
    calls.iter().map(|call| make(service, call, random)).collect()
}

/// The service before a history's first call, made over words that are all this one.
fn first_over(history: &History, word: u64) -> Kept {
    Kept::new(history.start.as_deref().map_or_else(|| fresh_over(word), Service::clone))
}

/// The histories of the seeds.
fn histories() -> impl Iterator<Item = History> {
    (SEED..SEED + HISTORIES).map(generate)
}

/// That the words are the same; they are too many to print.
fn assert_same(one: &Service, other: &Service, what: &str) {
    assert!(one == other, "{what}");
}

/// Makes all words random.
fn randomize(service: &mut Service, random: &mut Random) {
    let words = service.accounts.iter_mut().chain(&mut service.ledger);
    words.for_each(|word| *word = random.word());
}

#[test]
fn a_fresh_service_is_the_same_over_any_words() {
    let mut random = Random(SEED);
    let mut service = Box::new(filled(0));
    for _ in 0..100 {
        randomize(&mut service, &mut random);
        raw::fresh(&mut service.accounts, &mut service.ledger);
        assert_same(&service, &Service::fresh(), "fresh over random words");
    }
    assert_same(&service, &filled(0), "a fresh service has words 0");
}

#[test]
fn the_same_calls_have_the_same_answers() {
    for history in histories() {
        let mut one = first_over(&history, 0);
        let mut other = first_over(&history, 0xA5A5_A5A5_A5A5_A5A5);
        let replies = make_all(&mut one, &history.calls, &mut Random(1));
        assert_eq!(replies, make_all(&mut other, &history.calls, &mut Random(2)));
        assert_same(&one, &other, "the words after the same calls");
    }
}

#[test]
fn services_side_by_side_leave_each_other_alone() {
    let histories: Vec<History> = histories().collect();
    for pair in histories.chunks_exact(2) {
        let mut random = Random(pair[0].seed);
        let mut alone = [0, 1].map(|side| first_over(&pair[side], 0));
        let mut together = alone.clone();
        let expected =
            [0, 1].map(|side| make_all(&mut alone[side], &pair[side].calls, &mut random));
        let mut replies = [Vec::new(), Vec::new()];
        let done =
            |replies: &[Vec<Reply>; 2], side: usize| replies[side].len() == pair[side].calls.len();
        while !(done(&replies, 0) && done(&replies, 1)) {
            let side =
                if done(&replies, 0) || random.once_in(2) && !done(&replies, 1) { 1 } else { 0 };
            let call = &pair[side].calls[replies[side].len()];
            replies[side].push(make(&mut together[side], call, &mut random));
        }
        assert_eq!(replies, expected);
        for side in [0, 1] {
            assert_same(&together[side], &alone[side], "the words of a service beside another");
        }
    }
}

#[test]
fn a_copy_of_the_words_goes_on_alike() {
    for history in histories() {
        let mut random = Random(history.seed);
        let mut service = first_over(&history, 0);
        let (before, after) = history.calls.split_at(random.below(history.calls.len()));
        make_all(&mut service, before, &mut random);
        let mut copy = service.clone();
        let kept = service.clone();
        let replies = make_all(&mut copy, after, &mut random);
        assert_same(&service, &kept, "the words that were copied");
        assert_eq!(replies, make_all(&mut service, after, &mut random));
        assert_same(&service, &copy, "the words of the copy");
    }
}

#[test]
fn descent_and_day_total_only_read() {
    for history in histories() {
        let mut service = first_over(&history, 0);
        make_all(&mut service, &history.calls, &mut Random(history.seed));
        let before = service.clone();
        let total = service.day_total();
        for number in (0..600).chain([65_535, 65_536, u32::MAX]) {
            assert_eq!(service.descent(number), service.descent(number));
        }
        assert_eq!(service.day_total(), total);
        assert_same(&service, &before, "the words after descents and totals");
    }
}

#[test]
fn what_only_reads_answers_twice_alike_and_changes_nothing() {
    for history in histories() {
        let mut random = Random(history.seed);
        let mut service = first_over(&history, 0);
        make_all(&mut service, &history.calls, &mut random);
        let before = service.clone();
        let (total, held) = (service.day_total(), service.held());
        for number in (0..600).chain([65_535, 65_536, u32::MAX]) {
            assert_eq!(service.descent(number), service.descent(number));
            assert_eq!(read_account(&service, number), read_account(&service, number));
            let looks = [0, 1].map(|_| look(&service, number, LONGEST_RECORD, &mut random));
            assert_eq!(looks[0], looks[1]);
        }
        assert_eq!(service.to_saved(), service.to_saved());
        assert_eq!((service.day_total(), service.held()), (total, held));
        assert_same(&service, &before, "the words after calls that only read");
    }
}

#[test]
fn r7_9_a_service_that_was_loaded_goes_on_alike() {
    for history in histories() {
        let mut random = Random(history.seed);
        let mut service = first_over(&history, 0);
        let (before, after) = history.calls.split_at(random.below(history.calls.len()));
        make_all(&mut service, before, &mut random);
        let bytes = save(&service, SAVED_SIZE, &mut random).1;
        let mut other = service.clone();
        randomize(&mut other, &mut random);
        assert_eq!(other.load(&bytes), Ok(()));
        assert_same(&other, &service, "the words that were loaded");
        assert!(other.to_saved() == bytes, "what is loaded is saved as the same bytes");
        let replies = make_all(&mut service, after, &mut random);
        assert_eq!(replies, make_all(&mut other, after, &mut random));
        assert_same(&other, &service, "the words of what was loaded");
    }
}

/// The edits of a history that were stored, of each account the last.
fn last_edits<'a>(calls: &'a [Call], replies: &[Reply]) -> Vec<Option<Edit<'a>>> {
    let mut edits = vec![None; ACCOUNT_LIMIT];
    for (call, reply) in calls.iter().zip(replies) {
        if let (Some(edit), 0) = (edit_of(call), reply.0) {
            edits[edit.number as usize] = Some(edit);
        }
    }
    edits
}

/// Whether a history has no loading that succeeds: all that it did stands then.
fn goes_on(calls: &[Call], replies: &[Reply]) -> bool {
    let mut pairs = calls.iter().zip(replies);
    !pairs.any(|(call, reply)| matches!(call, Call::Load { .. }) && reply.0 == 0)
}

#[test]
fn r2_13_an_account_reads_as_its_last_edit_left_it() {
    let mut counts = [0; 2];
    for history in histories().filter(|history| history.start.is_none()) {
        let mut service = first_over(&history, 0);
        let replies = make_all(&mut service, &history.calls, &mut Random(history.seed));
        if !goes_on(&history.calls, &replies) {
            continue;
        }
        for (number, edit) in (0..).zip(last_edits(&history.calls, &replies)) {
            let account = service.account(number).expect("the number is an account's");
            let read =
                account.as_ref().map(|Account { flags, send, receive, lifetime, .. }| {
                    (*flags, *send, *receive, *lifetime)
                });
            let Edit { flags, send, receive, lifetime, .. } = edit.unwrap_or(UNSET);
            assert_eq!(read, edit.map(|_| (flags, send, receive, lifetime)), "account {number}");
            let name = account.as_ref().map(Account::name);
            assert_eq!(name, edit.map(|edit| edit.name), "account {number}");
            counts[usize::from(edit.is_some())] += 1;
        }
    }
    assert!(counts.iter().all(|&count| count > 100), "{counts:?}");
}

/// An edit of nothing.
const UNSET: Edit = Edit { number: 0, name: &[], flags: 0, send: 0, receive: 0, lifetime: 0 };

#[test]
fn r2_13_what_is_read_hangs_on_the_account_s_own_row() {
    let mut random = Random(SEED);
    let mut service = Box::new(filled(0));
    randomize(&mut service, &mut random);
    for row in 0..ACCOUNT_LIMIT {
        let length = random.below(NAME_LIMIT + 2) as u64;
        let word = &mut service.accounts[row_at(row) + 3];
        *word = *word & !0xFF | length;
    }
    for number in 0..ACCOUNT_LIMIT {
        let mut other = service.clone();
        randomize(&mut other, &mut random);
        let row = row_at(number)..row_at(number) + 6;
        other.accounts[row.clone()].copy_from_slice(&service.accounts[row]);
        let number = number as u32;
        assert_eq!(read_account(&service, number), read_account(&other, number));
    }
}

#[test]
fn r7_7_the_records_held_are_those_that_were_put_out() {
    let mut looked = 0;
    for history in histories().filter(|history| history.start.is_none()) {
        let mut service = first_over(&history, 0);
        let replies = make_all(&mut service, &history.calls, &mut Random(history.seed));
        let granted = history.calls.iter().zip(&replies).filter_map(|(call, reply)| {
            matches!(call, Call::Request { .. }).then_some(reply.1.as_slice())
        });
        let granted: HashSet<&[u8]> = granted.filter(|record| !record.is_empty()).collect();
        assert_eq!(u64::from(service.held()), service.ledger[COUNT_AT]);
        let mut before = None;
        for (place, ticket) in (0..).zip(service.tickets()) {
            let record = service.record_at(place).expect("a ticket that was granted");
            assert!(granted.contains(&record[..]), "{record:?} was put out");
            assert_eq!(ticket.number.to_be_bytes(), record[2..4], "the number in the record");
            let rises = before.replace(ticket.number) < Some(ticket.number);
            assert!(rises, "the numbers rise");
            let steps = service.descent(ticket.number.into());
            assert_eq!(steps.is_ok_and(|steps| steps > 0), has_back(&ticket));
            looked += 1;
        }
        for place in service.held()..TICKET_LIMIT as u32 + 2 {
            assert_eq!(number(service.ticket_at(place)), 41, "place {place}");
            assert_eq!(number(service.record_at(place)), 41, "place {place}");
        }
    }
    assert!(looked > 1_000, "{looked} tickets");
}

/// Whether a ticket rests on another.
fn has_back(ticket: &Ticket) -> bool {
    ticket.origin != tickets::Origin::Initial
}

#[test]
fn r4_9_what_is_written_is_read_and_written_again() {
    let mut counts = [0; 5];
    for history in histories() {
        for call in &history.calls {
            let Call::Write { parts, .. } = call else {
                continue;
            };
            let mut random = Random(history.seed);
            let (error, bytes) = write(parts, LONGEST_REQUEST, &mut random);
            if error != 0 {
                assert_eq!(error, 60, "an output of this length is enough: {parts}");
                continue;
            }
            let read = ReadRequest::read(&bytes).expect("what was written reads");
            let numbers = [parts.kind, parts.options, parts.pac_options, parts.till];
            assert_eq!([read.kind, read.options, read.pac_options, read.till], numbers);
            let names = [read.user, read.service].map(Option::unwrap_or_default);
            assert_eq!(names, [&parts.user[..], &parts.service[..]]);
            // A bit that the kind needs anyway leaves the bytes as they are.
            let needed = parts.fields | 1 | if parts.kind == 4 { 0x2 } else { 0 };
            let again = OwnedParts { fields: needed, ..parts.clone() };
            assert_eq!(write(&again, bytes.len(), &mut random), (0, bytes.clone()));
            assert_eq!(write(&again, bytes.len() - 1, &mut random).0, 52);
            counts[parts.kind as usize] += 1;
        }
    }
    println!("of kinds 1 to 4 {:?}", &counts[1..]);
    assert!(counts[1..].iter().all(|&count| count > 50));
}

/// The names of all accounts, in some letter case, and others made of them.
fn names(accounts: &AccountWords, random: &mut Random) -> Vec<Vec<u8>> {
    let mut names = Vec::new();
    for account in words::table(accounts).rows.iter().flatten() {
        names.push(odd::letter_case(random, account.name()));
        names.push(odd::near_name(random, account.name().to_vec()));
    }
    names
}

/// Makes all words of the accounts random but for the names and their lengths: the header, the bytes
/// behind a name, flags, lifetime and free bits, the sets, and the free words.
fn keep_names_alone(accounts: &mut AccountWords, random: &mut Random) {
    let before = *accounts;
    accounts.iter_mut().for_each(|word| *word = random.word());
    let rows = before[HEADER_SIZE..].chunks_exact(ROW_SIZE);
    for (row, old) in accounts[HEADER_SIZE..].chunks_exact_mut(ROW_SIZE).zip(rows) {
        let length = usize::from(old[3] as u8);
        row[3] = row[3] & !0xFF | length as u64;
        for at in 0..length.min(NAME_LIMIT) {
            let byte = 0xFF << (8 * (at % 8));
            row[at / 8] = row[at / 8] & !byte | old[at / 8] & byte;
        }
    }
}

#[test]
fn what_is_found_hangs_on_the_names_alone() {
    let mut found = [0; 2];
    for history in histories() {
        let mut random = Random(history.seed);
        let mut service = first_over(&history, 0);
        make_all(&mut service, &history.calls, &mut random);
        let before = service.clone();
        let mut others = service.accounts;
        for name in names(&service.accounts, &mut random) {
            keep_names_alone(&mut others, &mut random);
            let number = find_name(&service.accounts, &name);
            assert_eq!(find_among(&others, &name, &mut random), number, "{}", name.escape_ascii());
            found[usize::from(number < 64)] += 1;
        }
        assert_same(&service, &before, "the words after finds");
    }
    println!("{} names found, {} not found", found[1], found[0]);
    assert!(found.iter().all(|&count| count > 1_000));
}

#[test]
fn words_match_where_each_pair_of_bytes_alone_does() {
    let mut random = Random(SEED);
    let mut matching = 0;
    for _ in 0..200_000 {
        let a = random.word();
        let b = a ^ 0x2020_2020_2020_2020 & random.word() & random.word() & random.word();
        let of_bytes = (0..8).map(|place| 0xFF << (8 * place)).all(|byte: u64| {
            let around = random.word() & !byte;
            words_match(a & byte | around, b & byte | around) == 1
        });
        assert_eq!(words_match(a, b), of_bytes.into(), "{a:#018x} and {b:#018x}");
        assert_eq!(words_match(b, a), of_bytes.into(), "{b:#018x} and {a:#018x}");
        assert_eq!(words_match(a, a), 1, "{a:#018x}");
        matching += u32::from(of_bytes);
    }
    println!("{matching} of 200000 pairs of words match");
    assert!((1_000..199_000).contains(&matching));
}

/// The words after a clearing at this clock reading, and how many tickets it took out.
fn cleared(service: &Service, clock: u32) -> (Box<Service>, u32) {
    let mut after = Box::new(service.clone());
    let taken = after.clear(clock);
    (after, taken)
}

#[test]
fn two_clearings_are_one_at_the_later_clock() {
    for history in histories() {
        let mut random = Random(history.seed);
        let mut service = first_over(&history, 0);
        make_all(&mut service, &history.calls, &mut random);
        let (early, late) = (random.below(4_000) as u32, random.word() as u32);
        let (expected, taken) = cleared(&service, early.max(late));
        for (first, second) in [(early, late), (late, early), (early.max(late), early.max(late))] {
            let (between, some) = cleared(&service, first);
            let (after, others) = cleared(&between, second);
            assert_eq!(some + others, taken, "clearings at {first} and {second}");
            assert_same(&after, &expected, "the words after two clearings");
        }
        assert!(service.accounts == expected.accounts, "a clearing leaves the accounts");
    }
}

#[test]
fn a_clearing_leaves_the_descents_of_what_stays() {
    for history in histories().filter(|history| history.start.is_none()) {
        let mut service = first_over(&history, 0);
        make_all(&mut service, &history.calls, &mut Random(history.seed));
        let clock = Random(history.seed).below(40_000) as u32;
        let (after, taken) = cleared(&service, clock);
        let mut gone = 0;
        for number in 0..service.ledger[NEXT_AT] as u32 {
            let (before, after) = (service.descent(number), after.descent(number));
            gone += u32::from(before != after);
            let is_gone = after == Err(Error::KRB_AP_ERR_MODIFIED);
            assert!(after == before || is_gone, "the descent of {number}");
        }
        assert_eq!(gone, taken, "as many descents are gone as tickets");
        assert!(after.day_total() <= service.day_total());
        assert_eq!(after.ledger[COUNT_AT] + u64::from(taken), service.ledger[COUNT_AT]);
    }
}
