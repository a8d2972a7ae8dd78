//! Buffers that end, or begin, right at memory that may not be touched; memory that may only be read;
//! empty buffers; very long ones. A call that reads or writes outside what it is given, or writes where
//! it may not, ends the test program.

use harness::accounts::Edit;
use harness::calls::{AccountFields, NameBytes, RequestFields, TicketFields, NO_ACCOUNT};
use harness::histories::{edit_of, filled, generate, odd, Call, Damage, OwnedParts};
use harness::limits::{
    ACCOUNTS_SIZE, ACCOUNT_LIMIT, LEDGER_SIZE, LONGEST_RECORD, LONGEST_REQUEST, NAME_LIMIT,
    SAVED_SIZE, TICKET_LIMIT,
};
use harness::random::Random;
use harness::request_writer::Parts;
use harness::samples::{counted, w1, w3_with, TICKET_0, TICKET_1, TICKET_2};
use harness::words::{place_at, AccountWords, LedgerWords, COUNT_AT};
use std::env;
use std::ffi::{c_int, c_void};
use std::os::unix::process::ExitStatusExt;
use std::process::Command;
use std::ptr;
use std::slice;
use tickets::raw::{self, Answer};
use tickets::{Request, Service};

/// Where the seeds of the histories begin, and how many there are.
const SEED: u64 = 0x6661_756C_0000_0000;
const HISTORIES: u64 = 100;

/// A page of memory on x86-64 Linux, and the values of its mmap.h.
const PAGE: usize = 4096;
const PROT_NONE: c_int = 0;
const PROT_READ: c_int = 1;
const PROT_READ_WRITE: c_int = 3;
const MAP_PRIVATE_ANONYMOUS: c_int = 0x22;

/// The last account.
const LAST_ACCOUNT: u32 = ACCOUNT_LIMIT as u32 - 1;

/// Lengths of outputs that are too short, just long enough, and longer.
const OUTPUTS: [usize; 6] = [0, 1, LONGEST_RECORD - 1, LONGEST_RECORD, LONGEST_RECORD + 1, 64];

/// The signal of a read or write that memory does not allow.
const SIGSEGV: i32 = 11;

extern "C" {
    fn mmap(
        at: *mut c_void,
        len: usize,
        prot: c_int,
        flags: c_int,
        fd: c_int,
        from: i64,
    ) -> *mut c_void;
    fn mprotect(at: *mut c_void, len: usize, prot: c_int) -> c_int;
    fn munmap(at: *mut c_void, len: usize) -> c_int;
}

/// Pages of memory with a page before and a page after them that may not be touched.
struct Fenced {
    base: *mut u8,
    length: usize,
}

impl Fenced {
    /// Memory for so many bytes.
    fn new(bytes: usize) -> Self {
        let length = bytes.div_ceil(PAGE) * PAGE;
        let all = length + 2 * PAGE;
        // SAFETY: a mapping of its own, at a place that the system chooses.
        let base = unsafe { mmap(ptr::null_mut(), all, PROT_NONE, MAP_PRIVATE_ANONYMOUS, -1, 0) };
        assert_ne!(base.addr(), usize::MAX, "mmap");
        let fenced = Self { base: base.cast(), length };
        fenced.allow(PROT_READ_WRITE);
        fenced
    }

    /// Sets what may be done to the pages between the first and the last.
    fn allow(&self, prot: c_int) {
        // SAFETY: these pages are part of the mapping of this value.
        let set = unsafe { mprotect(self.base.add(PAGE).cast(), self.length, prot) };
        assert_eq!(set, 0, "mprotect");
    }

    /// The last bytes before the closed page, or the first ones after the other.
    fn at(&mut self, side: Side, bytes: usize) -> &mut [u8] {
        assert!(bytes <= self.length);
        let from = match side {
            Side::End => PAGE + self.length - bytes,
            Side::Beginning => PAGE,
        };
        // SAFETY: the bytes are inside the open pages, which are set to 0 at first, and which only
        // this value hands out, borrowed mutably.
        unsafe { slice::from_raw_parts_mut(self.base.add(from), bytes) }
    }

    /// A copy of the bytes at the fence.
    fn copy(&mut self, side: Side, bytes: &[u8]) -> &mut [u8] {
        let copy = self.at(side, bytes.len());
        copy.copy_from_slice(bytes);
        copy
    }

    /// Words at the fence.
    fn words<const N: usize>(&mut self, side: Side) -> &mut [u64; N] {
        let bytes = self.at(side, 8 * N);
        // SAFETY: the place is a multiple of 8, since a page is, and any bytes are words.
        unsafe { &mut *bytes.as_mut_ptr().cast() }
    }
}

impl Drop for Fenced {
    fn drop(&mut self) {
        // SAFETY: the mapping of this value, which nothing borrows any more.
        unsafe { munmap(self.base.cast(), self.length + 2 * PAGE) };
    }
}

/// Where a buffer meets the closed page.
#[derive(Clone, Copy, Debug)]
enum Side {
    Beginning,
    End,
}

/// Both of them.
const SIDES: [Side; 2] = [Side::Beginning, Side::End];

/// The library's calls with every buffer at a fence.
struct FencedCalls {
    side: Side,
    accounts: Fenced,
    ledger: Fenced,
    input: Fenced,
    output: Fenced,
    /// For the parts of a request: TGT, evidence, user, service.
    parts: [Fenced; 4],
    /// For an account's numbers and its name.
    fields: [Fenced; 2],
    /// What was saved last.
    saved: Vec<u8>,
}

impl FencedCalls {
    /// Words, input and output at this side of their fences.
    fn new(side: Side) -> Self {
        let [accounts, ledger] = [ACCOUNTS_SIZE, LEDGER_SIZE].map(|words| Fenced::new(8 * words));
        let [input, output] = [(); 2].map(|()| Fenced::new(SAVED_SIZE + 2 * PAGE));
        let parts = [(); 4].map(|()| Fenced::new(PAGE));
        let fields = [(); 2].map(|()| Fenced::new(PAGE));
        Self { side, accounts, ledger, input, output, parts, fields, saved: Vec::new() }
    }

    /// Sets all words of the service, and what was saved of it last.
    fn set(&mut self, words: &Service) {
        *self.accounts.words(self.side) = words.accounts;
        *self.ledger.words(self.side) = words.ledger;
        self.saved = words.to_saved();
    }

    /// All words of the service.
    fn words(&mut self) -> Service {
        let accounts = *self.accounts.words(self.side);
        Service { accounts, ledger: *self.ledger.words(self.side) }
    }

    /// `tickets_fresh`.
    fn make_fresh(&mut self) {
        raw::fresh(self.accounts.words(self.side), self.ledger.words(self.side));
        self.saved = Service::fresh().to_saved();
    }

    /// `tickets_edit`, with its name at the fence.
    fn edit(&mut self, edit: &Edit) -> u32 {
        let name = self.input.copy(self.side, edit.name);
        raw::edit(self.accounts.words(self.side), &Edit { name, ..*edit }.into())
    }

    /// Makes a call with accounts and a ledger that may only be read.
    fn reading<T>(&mut self, call: impl FnOnce(&mut Self) -> T) -> T {
        self.accounts.allow(PROT_READ);
        self.ledger.allow(PROT_READ);
        let answer = call(self);
        self.accounts.allow(PROT_READ_WRITE);
        self.ledger.allow(PROT_READ_WRITE);
        answer
    }

    /// `tickets_find_name`, with its name at the fence, and accounts that may only be read.
    fn find_name(&mut self, name: &[u8]) -> u32 {
        self.reading(|fenced| {
            let name = fenced.input.copy(fenced.side, name);
            raw::find_name(fenced.accounts.words(fenced.side), name)
        })
    }

    /// `tickets_account`, with accounts that may only be read.
    fn account(&mut self, number: u32) -> (u32, AccountFields, NameBytes) {
        self.reading(|fenced| {
            let [numbers, bytes] = &mut fenced.fields;
            let (fields, name) = (numbers.words(fenced.side), bytes.at(fenced.side, NAME_LIMIT));
            let name: &mut NameBytes = name.try_into().expect("as many bytes as a name has");
            (*fields, *name) = ([u64::MAX; 6], [0xEE; NAME_LIMIT]);
            let accounts = fenced.accounts.words(fenced.side);
            (raw::account(accounts, number, fields, name), *fields, *name)
        })
    }

    /// `tickets_held` and `tickets_ticket_at`, with a ledger that may only be read.
    fn ticket_at(&mut self, place: u32) -> (u32, u32, TicketFields) {
        self.reading(|fenced| {
            let fields = fenced.fields[0].words(fenced.side);
            *fields = [u64::MAX; 19];
            let ledger = fenced.ledger.words(fenced.side);
            (raw::held(ledger), raw::ticket_at(ledger, place, fields), *fields)
        })
    }

    /// `tickets_record_at`, with a ledger that may only be read.
    fn record_at(&mut self, place: u32, output: &mut [u8]) -> Answer {
        self.reading(|fenced| {
            let copy = fenced.output.copy(fenced.side, output);
            let answer = raw::record_at(fenced.ledger.words(fenced.side), place, copy);
            output.copy_from_slice(copy);
            answer
        })
    }

    /// `tickets_save`, with words that may only be read.
    fn save(&mut self, output: &mut [u8]) -> Answer {
        self.reading(|fenced| {
            let copy = fenced.output.copy(fenced.side, output);
            let (accounts, ledger) = (&mut fenced.accounts, &mut fenced.ledger);
            let answer = raw::save(accounts.words(fenced.side), ledger.words(fenced.side), copy);
            output.copy_from_slice(copy);
            answer
        })
    }

    /// `tickets_load`, with bytes that may only be read.
    fn load(&mut self, saved: &[u8]) -> u32 {
        self.input.copy(self.side, saved);
        self.input.allow(PROT_READ);
        let (accounts, ledger) = (self.accounts.words(self.side), self.ledger.words(self.side));
        let error = raw::load(accounts, ledger, self.input.at(self.side, saved.len()));
        self.input.allow(PROT_READ_WRITE);
        error
    }

    /// `tickets_write_request`, with all parts at fences.
    fn write_request(&mut self, parts: &Parts, output: &mut [u8]) -> Answer {
        let Self { side, parts: [tgt, evidence, user, service], .. } = self;
        let given = Request {
            tgt: tgt.copy(*side, parts.tgt),
            evidence: evidence.copy(*side, parts.evidence),
            user: user.copy(*side, parts.user),
            service: service.copy(*side, parts.service),
            ..Request::from(*parts)
        };
        let fenced = self.output.copy(*side, output);
        let answer = raw::write_request(&given, fenced);
        output.copy_from_slice(fenced);
        answer
    }

    /// `tickets_request`, with all its buffers at fences.
    fn request(&mut self, request: &[u8], clock: u32, output: &mut [u8]) -> Answer {
        let given = self.input.copy(self.side, request);
        let fenced = self.output.copy(self.side, output);
        let (accounts, ledger) = (self.accounts.words(self.side), self.ledger.words(self.side));
        let answer = raw::request(accounts, ledger, given, clock, fenced);
        output.copy_from_slice(fenced);
        answer
    }

    /// `tickets_clear`, with its words at fences.
    fn clear(&mut self, clock: u32) -> u32 {
        raw::clear(self.accounts.words(self.side), self.ledger.words(self.side), clock)
    }

    /// `tickets_rewrite`, into an output of this length.
    fn rewrite(&mut self, record: &[u8], length: usize) -> Answer {
        let record = self.input.copy(self.side, record);
        raw::rewrite(record, self.output.at(self.side, length))
    }

    /// `tickets_read_request`, with the fields after it.
    fn read_request(&mut self, request: &[u8]) -> (u32, RequestFields) {
        let request = self.input.copy(self.side, request);
        let fields = self.output.words(self.side);
        (raw::read_request(request, fields), *fields)
    }
}

/// Reads the byte past a buffer's end.
#[test]
#[ignore = "it ends the program, as the next test expects"]
fn a_touch_of_the_fence() {
    let mut fenced = Fenced::new(1);
    let past = fenced.at(Side::End, 1).as_ptr().wrapping_add(1);
    // SAFETY: none: the closed page has to end the program here.
    println!("{}", unsafe { past.read_volatile() });
}

/// Writes to memory that may only be read.
#[test]
#[ignore = "it ends the program, as the next test expects"]
fn a_write_where_reading_alone_is_allowed() {
    let mut fenced = Fenced::new(1);
    fenced.allow(PROT_READ);
    let byte: *mut u8 = fenced.at(Side::End, 1).as_mut_ptr();
    // SAFETY: none: the page has to end the program here.
    unsafe { byte.write_volatile(1) };
}

#[test]
fn a_fence_ends_the_program_that_touches_it() {
    let program = env::current_exe().expect("the test program");
    for touch in ["a_touch_of_the_fence", "a_write_where_reading_alone_is_allowed"] {
        let run = Command::new(&program).args(["--ignored", "--exact", touch]).output();
        assert_eq!(run.expect("the test program runs").status.signal(), Some(SIGSEGV), "{touch}");
    }
}

#[test]
fn histories_run_at_fences_as_elsewhere() {
    for side in SIDES {
        let mut fenced = FencedCalls::new(side);
        for history in (SEED..SEED + HISTORIES).map(generate) {
            let mut plain = Box::new(history.first());
            match &history.start {
                None => fenced.make_fresh(),
                Some(words) => fenced.set(words),
            }
            for call in &history.calls {
                make_both(&mut plain, &mut fenced, call);
            }
            assert!(fenced.words() == *plain, "the words at the {side:?}");
            let ledger = fenced.ledger.words(side);
            assert_eq!(raw::day_total(ledger), plain.day_total());
            for number in (0..1_040).chain([65_535, 65_536, u32::MAX]) {
                let answer = raw::descent(ledger, number);
                assert_eq!(answer, raw::descent(&plain.ledger, number));
            }
        }
    }
}

/// Two outputs of this length, written by two calls, which have to answer and to write alike: the answer,
/// and one of them.
fn put_out(
    length: usize,
    one: impl FnOnce(&mut [u8]) -> Answer,
    other: impl FnOnce(&mut [u8]) -> Answer,
) -> (Answer, Vec<u8>) {
    let mut outputs = [vec![0xEE; length], vec![0xEE; length]];
    let [output, second] = &mut outputs;
    let answers = [one(output), other(second)];
    assert_eq!(answers[0], answers[1], "the answers, output of {length}");
    assert_eq!(outputs[0], outputs[1], "the outputs of {length}");
    let [output, _] = outputs;
    (answers[0], output)
}

/// Makes a call with plain buffers and with fenced ones.
fn make_both(plain: &mut Service, fenced: &mut FencedCalls, call: &Call) {
    match call {
        Call::Edit { .. } => {
            let edit = edit_of(call).expect("an edit");
            let answer = raw::edit(&mut plain.accounts, &edit.into());
            assert_eq!(fenced.edit(&edit), answer, "{call}");
        }
        Call::Find { name } => {
            assert_eq!(fenced.find_name(name), raw::find_name(&plain.accounts, name), "{call}");
        }
        Call::Request { request, clock, output } => {
            let Service { accounts, ledger } = plain;
            put_out(
                *output,
                |output| fenced.request(request, *clock, output),
                |output| raw::request(accounts, ledger, request, *clock, output),
            );
        }
        Call::Clear { clock } => assert_eq!(fenced.clear(*clock), plain.clear(*clock), "{call}"),
        Call::Account { number } => account_at_fences(plain, fenced, *number),
        Call::Look { place, output } => look_at_fences(plain, fenced, *place, *output),
        Call::Write { parts, output } => write_at_fences(fenced, &parts.lent(), *output),
        Call::Save { output } => save_at_fences(plain, fenced, *output),
        Call::Load { damage } => load_at_fences(plain, fenced, damage),
    }
}

/// Reads an account with plain buffers and with fenced ones.
fn account_at_fences(plain: &Service, fenced: &mut FencedCalls, number: u32) {
    let (mut fields, mut name) = ([u64::MAX; 6], [0xEE; NAME_LIMIT]);
    let error = raw::account(&plain.accounts, number, &mut fields, &mut name);
    assert_eq!(fenced.account(number), (error, fields, name), "account {number}");
}

/// Looks at a place with plain buffers and with fenced ones.
fn look_at_fences(plain: &Service, fenced: &mut FencedCalls, place: u32, output: usize) {
    let mut fields = [u64::MAX; 19];
    let error = raw::ticket_at(&plain.ledger, place, &mut fields);
    assert_eq!(fenced.ticket_at(place), (plain.held(), error, fields), "place {place}");
    put_out(
        output,
        |output| fenced.record_at(place, output),
        |output| raw::record_at(&plain.ledger, place, output),
    );
}

/// Writes a request with plain buffers and with fenced ones; and again to outputs exactly as long, and a
/// byte too short.
fn write_at_fences(fenced: &mut FencedCalls, parts: &Parts, output: usize) {
    let mut write = |length| {
        put_out(
            length,
            |output| fenced.write_request(parts, output),
            |output| raw::write_request(&(*parts).into(), output),
        )
        .0
    };
    write(output);
    let whole = write(LONGEST_REQUEST);
    if whole.error == 0 {
        let length = whole.value as usize;
        assert_eq!(write(length), whole, "{parts:?}");
        assert_eq!(write(length - 1), Answer { error: 52, value: 0 }, "{parts:?}");
    }
}

/// Saves with plain buffers and with fenced ones, and keeps what was saved.
fn save_at_fences(plain: &Service, fenced: &mut FencedCalls, output: usize) {
    let (answer, mut saved) = put_out(
        output,
        |output| fenced.save(output),
        |output| raw::save(&plain.accounts, &plain.ledger, output),
    );
    if answer.error == 0 {
        saved.truncate(SAVED_SIZE);
        fenced.saved = saved;
    }
}

/// Loads what was saved last, with some damage, with plain buffers and with fenced ones.
fn load_at_fences(plain: &mut Service, fenced: &mut FencedCalls, damage: &Damage) {
    let bytes = damage.done_to(&fenced.saved);
    let error = raw::load(&mut plain.accounts, &mut plain.ledger, &bytes);
    assert_eq!(fenced.load(&bytes), error, "{damage:?}");
    assert!(fenced.words() == *plain, "{damage:?}: the words");
}

#[test]
fn names_and_records_of_all_lengths_are_written_at_fences() {
    let records = [TICKET_0, TICKET_1, TICKET_2].map(<[u8]>::to_vec);
    for side in SIDES {
        let mut fenced = FencedCalls::new(side);
        for length in 0..=300 {
            let name = vec![b'n'; length];
            let mut user = OwnedParts { kind: 1, user: name.clone(), ..OwnedParts::default() };
            write_at_fences(&mut fenced, &user.lent(), length);
            user.service = user.user.clone();
            write_at_fences(&mut fenced, &user.lent(), 0);
            for record in &records {
                let service = OwnedParts { service: name.clone(), ..OwnedParts::default() };
                let tgt: Vec<u8> = record.iter().copied().cycle().take(length).collect();
                let direct = OwnedParts { kind: 2, tgt: record.clone(), ..service.clone() };
                write_at_fences(&mut fenced, &direct.lent(), LONGEST_REQUEST);
                let proxy = OwnedParts { kind: 4, tgt, evidence: record.clone(), ..service };
                write_at_fences(&mut fenced, &proxy.lent(), LONGEST_REQUEST);
            }
        }
    }
}

#[test]
fn every_account_and_place_is_read_at_fences() {
    let mut random = Random(SEED);
    for side in SIDES {
        let mut fenced = FencedCalls::new(side);
        for count in [0, 1, 511, 512, 513, u64::MAX] {
            let mut plain = filled(0);
            let words = plain.accounts.iter_mut().chain(&mut plain.ledger);
            words.for_each(|word| *word = random.word());
            plain.ledger[COUNT_AT] = count;
            fenced.set(&plain);
            for number in (0..300).chain([1 << 16, 1 << 31, u32::MAX]) {
                account_at_fences(&plain, &mut fenced, number);
            }
            for place in (0..520).chain([1 << 16, 1 << 29, 1 << 30, 1 << 31, u32::MAX]) {
                look_at_fences(&plain, &mut fenced, place, LONGEST_RECORD);
            }
        }
    }
}

#[test]
fn services_are_saved_and_loaded_at_fences() {
    let mut random = Random(SEED);
    for side in SIDES {
        let mut fenced = FencedCalls::new(side);
        let mut plain = filled(0);
        for _ in 0..20 {
            let words = plain.accounts.iter_mut().chain(&mut plain.ledger);
            words.for_each(|word| *word = random.word());
            fenced.set(&plain);
            for output in [0, 1, SAVED_SIZE - 1, SAVED_SIZE, SAVED_SIZE + 1] {
                save_at_fences(&plain, &mut fenced, output);
            }
            let last = SAVED_SIZE - 1;
            for damage in [
                Damage::Empty,
                Damage::Missing { at: last },
                Damage::LeftOver { at: SAVED_SIZE, byte: 0 },
                Damage::Byte { at: last, add: 1 },
                Damage::Byte { at: 0, add: 1 },
                Damage::Random { seed: SEED, length: 1 },
                Damage::None,
            ] {
                plain.ledger[COUNT_AT] = random.word();
                let saved = std::mem::take(&mut fenced.saved);
                fenced.set(&plain);
                fenced.saved = saved;
                load_at_fences(&mut plain, &mut fenced, &damage);
            }
        }
    }
}

/// Words of a ledger with this count, in which the end of place i is i.
fn ends_in_order(count: u64) -> Service {
    let mut service = filled(u64::MAX);
    service.ledger[COUNT_AT] = count;
    for place in 0..TICKET_LIMIT {
        service.ledger[place_at(place) + 1] = (place as u64) << 32;
    }
    service
}

#[test]
fn clearings_of_every_size_at_fences() {
    for side in SIDES {
        let mut fenced = FencedCalls::new(side);
        for count in [0, 1, 4, 5, 511, 512, 513, 1 << 32, u64::MAX] {
            let service = ends_in_order(count);
            let held = count.min(TICKET_LIMIT as u64) as u32;
            for clock in (0..520).chain([u32::MAX]) {
                let mut plain = service.clone();
                fenced.set(&service);
                make_both(&mut plain, &mut fenced, &Call::Clear { clock });
                assert!(fenced.words() == plain, "{count} tickets cleared at {clock}");
                let stay = held - held.min(clock.saturating_add(1));
                assert_eq!(plain.ledger[COUNT_AT], stay.into(), "{count} cleared at {clock}");
            }
        }
    }
}

/// The requests of the morning, and others made of them.
fn requests() -> Vec<Vec<u8>> {
    let mut random = Random(SEED);
    let whole = [w1(), w3_with(&counted(TICKET_1)), w3_with(&counted(TICKET_2))];
    let mut requests: Vec<Vec<u8>> = (0..=300).map(|length| random.bytes(length)).collect();
    for request in whole {
        requests.extend((0..=request.len()).map(|length| request[..length].to_vec()));
        requests.extend((0..2_000).map(|_| odd::bytes(&mut random, request.clone())));
    }
    requests
}

/// The service of the morning after W1 and W2.
fn morning() -> Service {
    let mut service = Service::fresh();
    for (number, name, flags, send) in [(0, "tech", 0, 0), (1, "web", 12, 4), (2, "store", 8, 0)] {
        let name = name.as_bytes();
        let edit = Edit { number, name, flags, send, receive: 0, lifetime: 36_000 };
        assert_eq!(service.edit(&edit.into()), Ok(()));
    }
    for (request, clock) in
        [(Request::initial(b"web"), 1000), (Request::s4u2self(TICKET_0, b"tech"), 1010)]
    {
        let request = request.to_vec().expect("the parts of a request");
        assert!(service.request(&request, clock).is_ok());
    }
    service
}

#[test]
fn parts_and_changes_of_requests_at_fences() {
    let morning = morning();
    let mut granted = 0;
    for side in SIDES {
        let mut fenced = FencedCalls::new(side);
        for request in requests() {
            let (error, fields) = fenced.read_request(&request);
            let mut expected = fields;
            assert_eq!(error, raw::read_request(&request, &mut expected));
            assert_eq!(fields, expected);
            for output in OUTPUTS {
                let mut plain = morning.clone();
                fenced.set(&morning);
                let call = Call::Request { request: request.clone(), clock: 1020, output };
                make_both(&mut plain, &mut fenced, &call);
                assert!(fenced.words() == plain, "{call}");
                granted += u32::from(plain != morning);
            }
        }
    }
    assert!(granted > 100, "{granted} requests were granted");
}

#[test]
fn parts_and_changes_of_records_at_fences() {
    let mut random = Random(SEED);
    for side in SIDES {
        let mut fenced = FencedCalls::new(side);
        for whole in [TICKET_0, TICKET_1, TICKET_2] {
            let parts = (0..=whole.len()).map(|length| whole[..length].to_vec());
            let altered: Vec<_> =
                (0..2_000).map(|_| odd::bytes(&mut random, whole.to_vec())).collect();
            for record in parts.chain(altered) {
                for length in OUTPUTS {
                    let answer = raw::rewrite(&record, &mut [0; 64][..length]);
                    assert_eq!(fenced.rewrite(&record, length), answer, "{record:02x?}");
                }
            }
        }
    }
}

#[test]
fn names_of_all_lengths_at_fences() {
    for side in SIDES {
        let mut fenced = FencedCalls::new(side);
        for length in 0..=300 {
            fenced.make_fresh();
            let name = &vec![b'n'; length];
            let number = LAST_ACCOUNT;
            let edit = Edit { number, name, flags: 8, send: 1, receive: 2, lifetime: 3 };
            let expected = if (1..=NAME_LIMIT).contains(&length) { 0 } else { 60 };
            assert_eq!(fenced.edit(&edit), expected, "a name of {length} bytes");
            assert_eq!(fenced.edit(&edit), expected, "the same name of {length} bytes again");
        }
    }
}

/// Lengths of names that are looked for: around those of a word and of the longest name.
const LENGTHS: [usize; 8] = [0, 1, 7, 8, 9, NAME_LIMIT, NAME_LIMIT + 1, 255];

/// Sets an account to a name of this length, if a name has it, and looks for names of this length, of
/// others, and of one that has the same low byte.
fn find_at_fences(fenced: &mut FencedCalls, number: u32, length: usize) {
    fenced.make_fresh();
    let name = &vec![b'n'; length];
    let edit = Edit { number, name, flags: 8, send: 1, receive: 2, lifetime: 3 };
    let own = if fenced.edit(&edit) == 0 { number } else { NO_ACCOUNT };
    let before = fenced.words();
    for other in LENGTHS.into_iter().chain([length, 256 + length]) {
        let found = if other == length { own } else { NO_ACCOUNT };
        for byte in [b'n', b'N'] {
            let name = vec![byte; other];
            assert_eq!(fenced.find_name(&name), found, "{other} bytes, a name of {length}");
        }
    }
    assert!(fenced.words() == before, "the words after finds");
}

#[test]
fn names_of_all_lengths_are_found_at_fences() {
    for side in SIDES {
        let mut fenced = FencedCalls::new(side);
        for length in 0..=300 {
            find_at_fences(&mut fenced, 0, length);
            find_at_fences(&mut fenced, LAST_ACCOUNT, length);
        }
    }
}

#[test]
fn empty_buffers_are_not_touched() {
    let mut service = Box::new(morning());
    let before = service.clone();
    let Service { accounts, ledger } = &mut *service;
    // An empty slice points to no memory: its address is 1.
    let empty: &mut [u8] = &mut [];
    let refused = |error| Answer { error, value: 0 };
    assert_eq!(raw::edit(accounts, &tickets::Edit::default()), 60);
    assert_eq!(raw::find_name(accounts, &[]), NO_ACCOUNT);
    assert_eq!(raw::request(accounts, ledger, &[], 0, empty), refused(60));
    assert_eq!(raw::request(accounts, ledger, &w1(), 0, empty), refused(52));
    assert_eq!(raw::rewrite(&[], empty), refused(60));
    assert_eq!(raw::rewrite(TICKET_0, empty), refused(52));
    assert_eq!(raw::read_request(&[], &mut [7; 10]), 60);
    assert_eq!(raw::record_at(ledger, 1, empty), refused(52));
    assert_eq!(raw::record_at(ledger, 2, empty), refused(41));
    assert_eq!(raw::save(accounts, ledger, empty), refused(52));
    assert_eq!(raw::load(accounts, ledger, &[]), 60);
    for (parts, error) in [
        (Request::default(), 60),
        (Request::initial(&[]), 52),
        (Request::direct(&[], &[]), 60),
        (Request::s4u2proxy(&[], &[], &[]), 60),
    ] {
        assert_eq!(raw::write_request(&parts, empty), refused(error), "{parts:?}");
    }
    assert!(service == before);
}

#[test]
fn long_requests_names_and_outputs() {
    let edit = Edit { number: 1, name: b"web", flags: 12, send: 4, receive: 0, lifetime: 36_000 };
    for length in [1 << 20, 64 << 20] {
        let mut service = Box::new(Service::fresh());
        assert_eq!(service.edit(&edit.into()), Ok(()));
        let before = service.clone();
        let mut long = w1();
        long.resize(length, 0);
        let mut output = vec![0xEE; length];
        let Service { accounts, ledger } = &mut *service;
        let refused = Answer { error: 60, value: 0 };
        assert_eq!(raw::request(accounts, ledger, &long, 1000, &mut output), refused);
        assert_eq!(raw::load(accounts, ledger, &long), 60);
        for parts in long_parts(&long) {
            assert_eq!(raw::write_request(&parts, &mut output), refused);
        }
        assert!(*accounts == before.accounts && *ledger == before.ledger);
        assert!(output.iter().all(|&byte| byte == 0xEE));
        let granted = Answer { error: 0, value: TICKET_0.len() as u32 };
        assert_eq!(raw::request(accounts, ledger, &w1(), 1000, &mut output), granted);
        assert_eq!(&output[..TICKET_0.len()], TICKET_0);
        assert!(output[TICKET_0.len()..].iter().all(|&byte| byte == 0xEE));
        assert_eq!(raw::rewrite(&long, &mut output), refused);
        assert_eq!(raw::find_name(accounts, &long), NO_ACCOUNT);
        assert_eq!(raw::rewrite(TICKET_0, &mut output[..LONGEST_RECORD]), granted);
        outputs_behind(accounts, ledger, &mut output);
    }
}

/// Parts of requests of which one is very long.
fn long_parts(long: &[u8]) -> [Request<'_>; 5] {
    [
        Request::initial(long),
        Request::direct(TICKET_0, long),
        Request::direct(long, b"store"),
        Request::s4u2proxy(TICKET_0, long, b"store"),
        Request { evidence: long, ..Request::initial(b"web") },
    ]
}

/// The calls that write to an output, one that is very long, leave the bytes behind what they write.
fn outputs_behind(accounts: &AccountWords, ledger: &LedgerWords, output: &mut [u8]) {
    let written = |length: usize| Answer { error: 0, value: length as u32 };
    output.fill(0xEE);
    assert_eq!(raw::write_request(&Request::initial(b"web"), output), written(7));
    assert!(output[7..].iter().all(|&byte| byte == 0xEE));
    assert_eq!(raw::record_at(ledger, 0, output), written(TICKET_0.len()));
    assert!(output[TICKET_0.len()..].iter().all(|&byte| byte == 0xEE));
    assert_eq!(raw::save(accounts, ledger, output), written(SAVED_SIZE));
    assert!(output[SAVED_SIZE..].iter().all(|&byte| byte == 0xEE));
}
