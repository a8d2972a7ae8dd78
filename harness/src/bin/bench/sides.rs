//! The two implementations behind one trait, and the calls that are made of both.

use harness::accounts::{Account, Edit};
use harness::calls::{self, AccountFields, Answer, NameBytes, RequestFields, TicketFields};
use harness::limits::{
    ACCOUNTS_SIZE, ACCOUNT_LIMIT, LEDGER_SIZE, LONGEST_RECORD, LONGEST_REQUEST, NAME_LIMIT,
    PLACE_SIZE, ROW_WORDS, SAVED_SIZE, TICKET_LIMIT,
};
use harness::record::{Origin, Ticket, NO_TRAIL};
use harness::request_writer::Parts;
use harness::words::{
    count_held, number_at, place_at, place_words, row_at, AccountWords, LedgerWords, COUNT_AT,
    NEXT_AT,
};
use harness::{matcher, service};
use std::hint::black_box;
use tickets::raw;

/// One of the two implementations, with its state.
pub trait Side {
    /// Its name as an argument of this program.
    const NAME: &'static str;

    /// All of a state that a call may change.
    type Kept;

    /// `tickets_edit`.
    fn edit(&mut self, edit: &Edit) -> u32;

    /// `tickets_request`.
    fn request(&mut self, request: &[u8], clock: u32, output: &mut [u8]) -> Answer;

    /// `tickets_clear`.
    fn clear(&mut self, clock: u32) -> u32;

    /// `tickets_descent`.
    fn descent(&self, number: u32) -> Answer;

    /// `tickets_day_total`.
    fn day_total(&self) -> u64;

    /// `tickets_account`.
    fn account(&self, number: u32, fields: &mut AccountFields, name: &mut NameBytes) -> u32;

    /// `tickets_ticket_at`.
    fn ticket_at(&self, place: u32, fields: &mut TicketFields) -> u32;

    /// `tickets_save`, of the same words on both sides.
    fn save(accounts: &AccountWords, ledger: &LedgerWords, output: &mut [u8]) -> Answer;

    /// `tickets_load`, to words beside the state.
    fn load(accounts: &mut AccountWords, ledger: &mut LedgerWords, saved: &[u8]) -> u32;

    /// `tickets_write_request`.
    fn write_request(parts: &Parts, output: &mut [u8]) -> Answer;

    /// `tickets_find_name`; of the second implementation the plain matcher's, over the same words.
    fn find_name(accounts: &AccountWords, name: &[u8]) -> u32;

    /// `tickets_words_match`.
    fn words_match(a: u64, b: u64) -> u32;

    /// `tickets_rewrite`.
    fn rewrite(record: &[u8], output: &mut [u8]) -> Answer;

    /// `tickets_read_request`.
    fn read_request(request: &[u8], fields: &mut RequestFields) -> u32;

    /// What a call may change.
    fn keep(&self, changes: Changes) -> Self::Kept;

    /// Puts all of it back, whether the call changed it or not.
    fn put_back(&mut self, kept: &Self::Kept);
}

/// What a call may change, and what is put back after it.
#[derive(Clone, Copy, Debug, PartialEq, Eq)]
pub enum Changes {
    /// The count of tickets, the next number, the place of the next ticket, and the row of the account
    /// with this number.
    Parts { account: usize },
    /// All of the ledger.
    Ledger,
}

/// The words that a call of the library may change, with where they stand.
pub enum KeptWords {
    Parts {
        count: u64,
        next: u64,
        numbers_at: usize,
        numbers: u64,
        place: usize,
        ticket: [u64; PLACE_SIZE],
        row: usize,
        account: [u64; ROW_WORDS],
    },
    Ledger(Box<LedgerWords>),
}

/// The same of the second implementation. A ticket behind the last one is no part of its state, but it
/// is written too, so that both sides put back as much.
pub enum KeptValues {
    Parts { count: usize, next: u64, ticket: Ticket, row: usize, account: Option<Account> },
    Ledger(Vec<Ticket>),
}

/// The ticket that is put behind the last one.
const BLANK: Ticket = Ticket {
    number: 0,
    flags: 0,
    client: 0,
    service: 0,
    start: 0,
    end: 0,
    origin: Origin::Initial,
    trail: NO_TRAIL,
    hops: 0,
    barred: false,
};

impl Side for tickets::Service {
    const NAME: &'static str = "library";

    type Kept = KeptWords;

    fn edit(&mut self, edit: &Edit) -> u32 {
        raw::edit(&mut self.accounts, &(*edit).into())
    }

    fn request(&mut self, request: &[u8], clock: u32, output: &mut [u8]) -> Answer {
        raw::request(&mut self.accounts, &mut self.ledger, request, clock, output).into()
    }

    fn clear(&mut self, clock: u32) -> u32 {
        raw::clear(&mut self.accounts, &mut self.ledger, clock)
    }

    fn descent(&self, number: u32) -> Answer {
        raw::descent(&self.ledger, number).into()
    }

    fn day_total(&self) -> u64 {
        raw::day_total(&self.ledger)
    }

    fn account(&self, number: u32, fields: &mut AccountFields, name: &mut NameBytes) -> u32 {
        raw::account(&self.accounts, number, fields, name)
    }

    fn ticket_at(&self, place: u32, fields: &mut TicketFields) -> u32 {
        raw::ticket_at(&self.ledger, place, fields)
    }

    fn save(accounts: &AccountWords, ledger: &LedgerWords, output: &mut [u8]) -> Answer {
        raw::save(accounts, ledger, output).into()
    }

    fn load(accounts: &mut AccountWords, ledger: &mut LedgerWords, saved: &[u8]) -> u32 {
        raw::load(accounts, ledger, saved)
    }

    fn write_request(parts: &Parts, output: &mut [u8]) -> Answer {
        raw::write_request(&(*parts).into(), output).into()
    }

    fn find_name(accounts: &AccountWords, name: &[u8]) -> u32 {
        raw::find_name(accounts, name)
    }

    fn words_match(a: u64, b: u64) -> u32 {
        raw::words_match(a, b)
    }

    fn rewrite(record: &[u8], output: &mut [u8]) -> Answer {
        raw::rewrite(record, output).into()
    }

    fn read_request(request: &[u8], fields: &mut RequestFields) -> u32 {
        raw::read_request(request, fields)
    }

    fn keep(&self, changes: Changes) -> KeptWords {
        let Changes::Parts { account } = changes else {
            return KeptWords::Ledger(Box::new(self.ledger));
        };
        // A full ledger has no place for a ticket, and its last one stands in.
        let place = count_held(&self.ledger).min(TICKET_LIMIT - 1);
        let row = row_at(account);
        KeptWords::Parts {
            count: self.ledger[COUNT_AT],
            next: self.ledger[NEXT_AT],
            numbers_at: number_at(place),
            numbers: self.ledger[number_at(place)],
            place: place_at(place),
            ticket: place_words(&self.ledger, place),
            row,
            account: std::array::from_fn(|word| self.accounts[row + word]),
        }
    }

    fn put_back(&mut self, kept: &KeptWords) {
        match kept {
            KeptWords::Ledger(ledger) => self.ledger = **ledger,
            KeptWords::Parts { count, next, numbers_at, numbers, place, ticket, row, account } => {
                self.ledger[COUNT_AT] = *count;
                self.ledger[NEXT_AT] = *next;
                self.ledger[*numbers_at] = *numbers;
                self.ledger[*place..][..PLACE_SIZE].copy_from_slice(ticket);
                self.accounts[*row..][..ROW_WORDS].copy_from_slice(account);
            }
        }
    }
}

impl Side for service::Service {
    const NAME: &'static str = "second";

    type Kept = KeptValues;

    fn edit(&mut self, edit: &Edit) -> u32 {
        calls::edit(self, edit)
    }

    fn request(&mut self, request: &[u8], clock: u32, output: &mut [u8]) -> Answer {
        calls::request(self, request, clock, output)
    }

    fn clear(&mut self, clock: u32) -> u32 {
        calls::clear(self, clock)
    }

    fn descent(&self, number: u32) -> Answer {
        calls::descent(self, number)
    }

    fn day_total(&self) -> u64 {
        service::Service::day_total(self)
    }

    fn account(&self, number: u32, fields: &mut AccountFields, name: &mut NameBytes) -> u32 {
        calls::account(self, number, fields, name)
    }

    fn ticket_at(&self, place: u32, fields: &mut TicketFields) -> u32 {
        calls::ticket_at(self, place, fields)
    }

    fn save(accounts: &AccountWords, ledger: &LedgerWords, output: &mut [u8]) -> Answer {
        calls::save(accounts, ledger, output)
    }

    fn load(accounts: &mut AccountWords, ledger: &mut LedgerWords, saved: &[u8]) -> u32 {
        calls::load(accounts, ledger, saved)
    }

    fn write_request(parts: &Parts, output: &mut [u8]) -> Answer {
        calls::write_request(parts, output)
    }

    fn find_name(accounts: &AccountWords, name: &[u8]) -> u32 {
        matcher::find_name(accounts, name)
    }

    fn words_match(a: u64, b: u64) -> u32 {
        calls::words_match(a, b)
    }

    fn rewrite(record: &[u8], output: &mut [u8]) -> Answer {
        calls::rewrite(record, output)
    }

    fn read_request(request: &[u8], fields: &mut RequestFields) -> u32 {
        calls::read_request(request, fields)
    }

    fn keep(&self, changes: Changes) -> KeptValues {
        let Changes::Parts { account: row } = changes else {
            return KeptValues::Ledger(self.ledger.clone());
        };
        let (count, account) = (self.ledger.len(), self.table.rows[row]);
        KeptValues::Parts { count, next: self.next, ticket: BLANK, row, account }
    }

    fn put_back(&mut self, kept: &KeptValues) {
        match kept {
            KeptValues::Ledger(ledger) => {
                self.ledger.clear();
                self.ledger.extend_from_slice(ledger);
            }
            KeptValues::Parts { count, next, ticket, row, account } => {
                self.ledger.truncate(*count);
                self.next = *next;
                self.ledger.spare_capacity_mut()[0].write(*ticket);
                self.table.rows[*row] = *account;
            }
        }
    }
}

/// A call with its arguments.
pub enum Call {
    /// No call: what the loop around every other one costs that may change as much.
    Nothing(Changes),
    /// `tickets_request` of these bytes, with so much room in the output.
    Request { bytes: Vec<u8>, clock: u32, room: usize },
    /// `tickets_edit`.
    Edit(Edit<'static>),
    /// `tickets_clear` at a clock reading.
    Clear(u32),
    /// `tickets_descent` of a number.
    Descent(u32),
    /// `tickets_day_total`.
    DayTotal,
    /// `tickets_account` of a number.
    Account(u32),
    /// `tickets_ticket_at` of a place.
    TicketAt(u32),
    /// `tickets_save` of these words.
    Save(Box<tickets::Service>),
    /// `tickets_load` of these bytes.
    Load(Vec<u8>),
    /// `tickets_write_request` of these parts.
    WriteRequest(Parts<'static>),
    /// `tickets_find_name` in these words.
    FindName { accounts: Box<AccountWords>, name: Vec<u8> },
    /// `tickets_words_match` of two words.
    WordsMatch(u64, u64),
    /// `tickets_rewrite` of a record.
    Rewrite(Vec<u8>),
    /// `tickets_read_request` of a request.
    ReadRequest(Vec<u8>),
}

impl Call {
    /// What the call may change: of the accounts the one that an edit sets, and account 0 for every
    /// other call.
    pub fn changes(&self) -> Changes {
        match self {
            Call::Nothing(changes) => *changes,
            Call::Clear(_) => Changes::Ledger,
            Call::Edit(edit) => {
                Changes::Parts { account: (edit.number as usize).min(ACCOUNT_LIMIT - 1) }
            }
            _ => Changes::Parts { account: 0 },
        }
    }
}

/// What a call says; 0 for what it does not say.
#[derive(Clone, Copy, Debug, PartialEq, Eq)]
pub struct Said {
    /// The error number.
    pub error: u32,
    /// The value, the account found, whether words match, the day total, or how many tickets were taken
    /// out.
    pub value: u64,
}

impl From<Answer> for Said {
    fn from(answer: Answer) -> Self {
        Said { error: answer.error, value: answer.value.into() }
    }
}

/// The bytes of an output for a record: some more than the longest one has.
const ROOM: usize = LONGEST_RECORD + 9;

/// What a call may write to besides the service. Records and a request's numbers are marked anew after
/// each call; the rest is not, since the one call that writes to it writes the same bytes each time.
#[derive(Clone, PartialEq, Eq)]
pub struct Output {
    /// For a record, of which a request gets a part.
    record: [u8; ROOM],
    /// For a request's numbers.
    fields: RequestFields,
    /// For an account's numbers and its name.
    account: (AccountFields, NameBytes),
    /// For a ticket's numbers.
    ticket: TicketFields,
    /// For a request that is written.
    request: [u8; LONGEST_REQUEST],
    /// For a saved service.
    saved: Vec<u8>,
    /// For a service that is loaded.
    loaded: Box<tickets::Service>,
}

impl Output {
    /// An output that no call leaves so where it writes.
    pub fn marked() -> Self {
        Output {
            record: [0xEE; ROOM],
            fields: [u64::MAX; 10],
            account: ([u64::MAX; 6], [0xEE; NAME_LIMIT]),
            ticket: [u64::MAX; 19],
            request: [0xEE; LONGEST_REQUEST],
            saved: vec![0xEE; SAVED_SIZE],
            loaded: Box::new(tickets::Service {
                accounts: [u64::MAX; ACCOUNTS_SIZE],
                ledger: [u64::MAX; LEDGER_SIZE],
            }),
        }
    }

    /// Marks records and a request's numbers anew.
    fn mark(&mut self) {
        self.record = [0xEE; ROOM];
        self.fields = [u64::MAX; 10];
    }
}

/// Makes a call once.
#[inline(never)]
pub fn make<S: Side>(side: &mut S, call: &Call, output: &mut Output) -> Said {
    match call {
        Call::Nothing(_) => Said { error: 0, value: 0 },
        Call::Request { bytes, clock, room } => {
            side.request(bytes, *clock, &mut output.record[..*room]).into()
        }
        Call::Edit(edit) => Said { error: side.edit(edit), value: 0 },
        Call::Clear(clock) => Said { error: 0, value: side.clear(*clock).into() },
        Call::Descent(number) => side.descent(*number).into(),
        Call::DayTotal => Said { error: 0, value: side.day_total() },
        Call::Account(number) => {
            let (fields, name) = &mut output.account;
            Said { error: side.account(*number, fields, name), value: 0 }
        }
        Call::TicketAt(place) => {
            Said { error: side.ticket_at(*place, &mut output.ticket), value: 0 }
        }
        Call::Save(words) => S::save(&words.accounts, &words.ledger, &mut output.saved).into(),
        Call::Load(saved) => {
            let tickets::Service { accounts, ledger } = &mut *output.loaded;
            Said { error: S::load(accounts, ledger, saved), value: 0 }
        }
        Call::WriteRequest(parts) => S::write_request(parts, &mut output.request).into(),
        Call::FindName { accounts, name } => {
            Said { error: 0, value: S::find_name(accounts, name).into() }
        }
        Call::WordsMatch(a, b) => Said { error: 0, value: S::words_match(*a, *b).into() },
        Call::Rewrite(record) => S::rewrite(record, &mut output.record).into(),
        Call::ReadRequest(request) => {
            Said { error: S::read_request(request, &mut output.fields), value: 0 }
        }
    }
}

/// Makes a call so many times. After each of them all that it may have changed of the state is put back, so
/// that every call meets the state that the first one met. Nothing in the loop allocates:
/// the second implementation's ledger has room for all tickets and one more.
#[inline(never)]
pub fn repeated_calls<S: Side>(side: &mut S, call: &Call, calls: u32) {
    let kept = side.keep(call.changes());
    let mut output = Output::marked();
    for _ in 0..calls {
        black_box(make(black_box(&mut *side), black_box(call), black_box(&mut output)));
        side.put_back(&kept);
        output.mark();
    }
}
