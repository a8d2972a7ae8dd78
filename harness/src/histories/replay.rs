//! Replays a history on the compiled library and on the second implementation, and compares them.

use super::draft::TicketText;
use super::finds::Find;
use super::storing::Saved;
use super::tally::Met;
use super::{edit_of, generate, shrink, writing, Call, Hex, History, Tally};
use crate::accounts::{Edit, Table};
use crate::book::{self, Book};
use crate::calls::{self, Answer};
use crate::matcher;
use crate::past::Past;
use crate::random::Random;
use crate::record::{read_ticket, Principal, Ticket};
use crate::service::Service;
use crate::words::{self, COUNT_AT, NEXT_AT};
use std::fmt::Debug;
use tickets::raw;

/// The bytes before and after an output, which no call may touch.
pub(super) const MARGIN: usize = 16;

/// How many numbers of tickets that were taken out have their descents compared each time.
const GONE: usize = 4;

/// While the ledger holds no more tickets than this, the descents are compared after each call; beyond
/// it after so many calls as `RHYTHM` says.
const FEW: usize = 64;
const RHYTHM: usize = 16;

/// Both sides of a history, and what has to be true of the library's words.
pub struct Pair {
    /// The compiled library's service.
    pub(super) library: Box<tickets::Service>,
    /// Its words as they have to be.
    pub(super) words: Box<tickets::Service>,
    /// The second implementation's service.
    pub(super) second: Service,
    /// The notes of a history from a fresh service.
    pub(super) book: Option<Book>,
    /// The grants, by the library's records, and the clearings.
    pub(super) past: Past,
    /// The places below this one were held when a clearing took some out.
    pub(super) freed: usize,
    /// What was saved last.
    pub(super) saved: Saved,
    /// Whether something was loaded.
    pub(super) is_loaded: bool,
    /// What outputs hold before a call.
    pub(super) random: Random,
}

/// What a call did.
pub struct Outcome {
    /// The error number, 0 for what is granted, and for calls that have none.
    pub error: u32,
    /// The ticket that was granted.
    pub granted: Option<Ticket>,
}

/// A difference between the sides.
pub struct Failure {
    /// The call after which it was found.
    pub at: usize,
    /// The difference, in words.
    pub what: String,
    /// The number of the ticket that each call before it granted.
    pub granted: Vec<Option<u16>>,
}

/// An error that names both values, if they differ.
pub(super) fn same<T: PartialEq + Debug>(what: &str, library: T, second: T) -> Result<(), String> {
    if library == second {
        Ok(())
    } else {
        Err(format!("{what}: library {library:?}, second {second:?}"))
    }
}

/// An error that names the first byte that differs, of outputs that are as long.
pub(super) fn same_bytes(what: &str, library: &[u8], second: &[u8]) -> Result<(), String> {
    let Some(at) = library.iter().zip(second).position(|(byte, other)| byte != other) else {
        return Ok(());
    };
    let [one, other] = [library, second].map(|bytes| Hex(&bytes[at..bytes.len().min(at + 64)]));
    Err(format!("{what}, with {MARGIN} bytes around it, from byte {at} on:\n  {one}\n  {other}"))
}

/// An error that names the first word that differs.
fn same_words(what: &str, library: &[u64], expected: &[u64]) -> Result<(), String> {
    if library == expected {
        return Ok(());
    }
    let at = library.iter().zip(expected).position(|(word, other)| word != other).unwrap_or(0);
    let (word, other) = (library[at], expected[at]);
    Err(format!("{what}, word {at}: library {word:#018x}, expected {other:#018x}"))
}

/// An error that names the first account that differs.
fn same_accounts(library: &Table, second: &Table) -> Result<(), String> {
    let mut rows = library.rows.iter().zip(&second.rows).enumerate();
    match rows.find(|(_, (row, other))| row != other) {
        None => Ok(()),
        Some((number, (row, other))) => same(&format!("account {number}"), row, other),
    }
}

/// An error that names the first ticket that differs from the one held.
fn same_tickets<'a>(
    what: &str,
    held: &[Ticket],
    others: impl Iterator<Item = &'a Ticket>,
) -> Result<(), String> {
    let others: Vec<&Ticket> = others.collect();
    if held.len() != others.len() {
        return Err(format!("{} tickets held, {} {what}", held.len(), others.len()));
    }
    match held.iter().zip(others).find(|(one, other)| one != other) {
        None => Ok(()),
        Some((one, other)) => {
            Err(format!("held {}, {what} {}", TicketText(one), TicketText(other)))
        }
    }
}

/// An error with these words, unless the condition holds.
fn ensure(condition: bool, what: &str) -> Result<(), String> {
    if condition {
        Ok(())
    } else {
        Err(what.to_string())
    }
}

impl Pair {
    /// Both sides at the beginning of a history.
    pub fn new(history: &History) -> Self {
        let library = Box::new(history.first());
        let second = words::service(&library.accounts, &library.ledger);
        let book = history.start.is_none().then(Book::new);
        let past = Past::new(&second.ledger);
        let random = Random(history.seed);
        let words = library.clone();
        let (freed, is_loaded) = (0, false);
        let saved = Saved {
            bytes: library.to_saved(),
            second: second.clone(),
            book: book.clone(),
            past: past.clone(),
            freed,
        };
        Self { library, words, second, book, past, freed, saved, is_loaded, random }
    }

    /// Makes a call on both sides, and compares the answers, the outputs and all words.
    pub fn step(&mut self, call: &Call, tally: &mut Tally) -> Result<Outcome, String> {
        let outcome = match call {
            Call::Edit { .. } => self.edit(&edit_of(call).expect("an edit"), tally)?,
            Call::Find { name } => self.find(name, tally)?,
            Call::Request { request, clock, output } => {
                writing::written_again(request)?;
                let outcome = self.request(request, *clock, *output)?;
                let Self { past, freed, book, is_loaded, .. } = self;
                let met = Met { past, freed: *freed, book: book.as_ref(), is_loaded: *is_loaded };
                tally.requested(&self.second, &met, request, *clock, outcome.error);
                outcome
            }
            Call::Clear { clock } => self.clear(*clock, tally)?,
            Call::Account { number } => self.account(*number, tally)?,
            Call::Look { place, output } => self.look_at(*place, *output, tally)?,
            Call::Write { parts, output } => self.write(parts, *output, tally)?,
            Call::Save { output } => self.save(*output, tally)?,
            Call::Load { damage } => self.load(damage, tally)?,
        };
        same_words("the accounts", &self.library.accounts, &self.words.accounts)?;
        same_words("the ledger", &self.library.ledger, &self.words.ledger)?;
        self.check_notes(call, &outcome)?;
        Ok(outcome)
    }

    /// Makes an edit on both sides.
    fn edit(&mut self, edit: &Edit, tally: &mut Tally) -> Result<Outcome, String> {
        let account = |number| self.second.table.account(number);
        let known = Principal::try_from(edit.number).is_ok_and(|number| account(number).is_some());
        let error = raw::edit(&mut self.library.accounts, &(*edit).into());
        same("the answer", error, calls::edit(&mut self.second, edit))?;
        if error == 0 {
            words::store_edit(&mut self.words.accounts, edit);
        }
        tally.edited(edit, known, error);
        Ok(Outcome { error, granted: None })
    }

    /// Finds a name on both sides, and by the plain matcher.
    fn find(&self, name: &[u8], tally: &mut Tally) -> Result<Outcome, String> {
        let found = raw::find_name(&self.library.accounts, name);
        same("the account found", found, calls::find_name(&self.second, name))?;
        let plain = matcher::find_name(&self.words.accounts, name);
        same("the account found by the plain matcher", found, plain)?;
        let find = Find { accounts: &self.words.accounts, table: &self.second.table, name };
        tally.finds(&find, found);
        Ok(Outcome { error: 0, granted: None })
    }

    /// Makes a request on both sides, each with an output among the same random bytes.
    fn request(&mut self, request: &[u8], clock: u32, length: usize) -> Result<Outcome, String> {
        let mut by_library = self.random.bytes(length + 2 * MARGIN);
        let mut by_second = by_library.clone();
        let output = MARGIN..MARGIN + length;
        let answer = self.ask_library(request, clock, &mut by_library[output.clone()]);
        let other = self.ask_second(request, clock, &mut by_second[output]);
        same("the answer", answer, other)?;
        same_bytes("the output", &by_library, &by_second)?;
        if answer.error != 0 {
            return Ok(Outcome { error: answer.error, granted: None });
        }
        let ticket = *self.second.ledger.last().ok_or("a grant without a ticket")?;
        words::store_ticket(&mut self.words.ledger, &ticket);
        let record = &by_library[MARGIN..][..answer.value as usize];
        self.past.grant(read_ticket(record).map_err(|_| "a granted record does not read")?);
        Ok(Outcome { error: 0, granted: Some(ticket) })
    }

    /// Makes a request of the library.
    fn ask_library(&mut self, request: &[u8], clock: u32, output: &mut [u8]) -> Answer {
        let tickets::Service { accounts, ledger } = &mut *self.library;
        raw::request(accounts, ledger, request, clock, output).into()
    }

    /// Makes a request of the second implementation, and notes it where there is a book.
    fn ask_second(&mut self, request: &[u8], clock: u32, output: &mut [u8]) -> Answer {
        match &mut self.book {
            None => calls::request(&mut self.second, request, clock, output),
            Some(book) => Answer::of_length(book.request(&mut self.second, request, clock, output)),
        }
    }

    /// Makes a clearing on both sides, and of the book where there is one.
    fn clear(&mut self, clock: u32, tally: &mut Tally) -> Result<Outcome, String> {
        let held = self.second.held().to_vec();
        let taken = raw::clear(&mut self.library.accounts, &mut self.library.ledger, clock);
        same("how many were taken out", taken, calls::clear(&mut self.second, clock))?;
        if let Some(book) = &mut self.book {
            same("how many notes were struck out", taken, book.clear(clock))?;
        }
        tally.cleared(&held, self.words.ledger[COUNT_AT], clock, taken);
        words::store_clearing(&mut self.words.ledger, clock);
        self.past.clear(clock);
        if taken > 0 {
            self.freed = self.freed.max(held.len());
        }
        Ok(Outcome { error: 0, granted: None })
    }

    /// R9.1 to R9.8, where the service was fresh: the descent of a new ticket, and of every ticket
    /// that a clearing left or a loading brought back, is lawful, with as many steps as the library
    /// counts.
    fn check_notes(&self, call: &Call, outcome: &Outcome) -> Result<(), String> {
        match (&self.book, call) {
            (Some(book), Call::Clear { .. } | Call::Load { .. }) if outcome.error == 0 => {
                self.check_notes_from(book, 0)
            }
            (Some(book), _) if outcome.granted.is_some() => {
                self.check_notes_from(book, book.notes.len() - 1)
            }
            _ => Ok(()),
        }
    }

    /// The same of the notes from this one on.
    fn check_notes_from(&self, book: &Book, from: usize) -> Result<(), String> {
        book::lawful(&book.notes, from)?;
        book::descents(&book.notes, from, |number| self.library.descent(number))
    }

    /// Compares the tables, the ledgers, the next numbers, the day totals and the book. Answers the
    /// numbers of tickets that are gone.
    pub fn compare(&self) -> Result<Vec<u16>, String> {
        let decoded = words::service(&self.library.accounts, &self.library.ledger);
        same_accounts(&decoded.table, &self.second.table)?;
        same_tickets("by the second", &decoded.ledger, self.second.ledger.iter())?;
        same("the next number", decoded.next, self.second.next)?;
        same("the day total", self.library.day_total(), self.second.day_total())?;
        self.compare_book(&decoded)?;
        self.compare_past(&decoded)
    }

    /// R10.3, where the service was fresh: the ledger is the book's notes, and the next number the
    /// book's.
    fn compare_book(&self, decoded: &Service) -> Result<(), String> {
        let Some(book) = &self.book else {
            return Ok(());
        };
        same("the book's next number", decoded.next, book.next)?;
        same_tickets("noted", &decoded.ledger, book.notes.iter().map(|note| &note.ticket))
    }

    /// R10.3: the ledger is the tickets granted, in order, but for those whose end a later clearing
    /// reached; from a fresh service their numbers are 0 and on. Answers the numbers of those that are
    /// gone.
    fn compare_past(&self, decoded: &Service) -> Result<Vec<u16>, String> {
        let past = self.past.tickets();
        if self.book.is_some() {
            let numbers = past.iter().map(|(ticket, _)| u32::from(ticket.number));
            let in_order = numbers.eq(0..past.len() as u32);
            ensure(in_order, "the numbers granted are not 0 and on")?;
        }
        let standing = past.iter().filter(|(_, stands)| *stands).map(|(ticket, _)| ticket);
        same_tickets("granted and not cleared", &decoded.ledger, standing)?;
        let gone = past.iter().filter(|(_, stands)| !stands);
        Ok(gone.map(|(ticket, _)| ticket.number).collect())
    }

    /// Compares the descents of all numbers held, of some that are gone, and of some others.
    pub fn compare_descents(&mut self, gone: &[u16], tally: &mut Tally) -> Result<(), String> {
        let next = self.library.ledger[NEXT_AT] as u32;
        let some = self.random.word() as u16;
        let others =
            [next, next.wrapping_add(1), some.into(), 65_535, 65_536, 65_536 + next / 2, u32::MAX];
        let held = self.second.ledger.iter().map(|ticket| u32::from(ticket.number));
        for number in held.chain(others) {
            let steps = self.compare_descent(number)?;
            tally.descends(steps);
        }
        for _ in 0..GONE.min(gone.len()) {
            let number = self.random.pick(gone);
            let steps = self.compare_descent(number.into())?;
            tally.descends_from_gone(steps);
            let is_41 = steps.is_none() || self.book.is_none();
            ensure(is_41, "a number that is gone has a descent")?;
        }
        Ok(())
    }

    /// Compares the descent of a number, and answers its steps, none for 41.
    fn compare_descent(&self, number: u32) -> Result<Option<u32>, String> {
        let answer = Answer::from(raw::descent(&self.library.ledger, number));
        let second = calls::descent(&self.second, number);
        if answer != second {
            return Err(format!("the descent of {number}: library {answer:?}, second {second:?}"));
        }
        Ok((answer.error == 0).then_some(answer.value))
    }

    /// Compares the states after the call of this place in the history: all but the descents each time
    /// where the rhythm is no longer than `RHYTHM`; all, where it is its turn, and with few tickets
    /// each time too.
    fn look(&mut self, at: usize, rhythm: usize, tally: &mut Tally) -> Result<(), String> {
        let (often, turn) = (rhythm <= RHYTHM, (at + 1).is_multiple_of(rhythm));
        if !often && !turn {
            return Ok(());
        }
        let gone = self.compare()?;
        if turn || self.second.ledger.len() <= FEW {
            self.compare_descents(&gone, tally)?;
        }
        Ok(())
    }

    /// Compares the states after the last call, and looks once more at all notes that stand.
    fn finish(&mut self, tally: &mut Tally) -> Result<(), String> {
        let gone = self.compare()?;
        self.compare_descents(&gone, tally)?;
        self.book.as_ref().map_or(Ok(()), |book| self.check_notes_from(book, 0))
    }
}

/// Replays a history; the states are compared in full every `rhythm` calls, as `Pair::look` says, and
/// at the end.
pub fn replay(history: &History, rhythm: usize, tally: &mut Tally) -> Result<(), Failure> {
    let mut pair = Pair::new(history);
    let mut granted = Vec::new();
    tally.begins(history, &pair.second);
    for (at, call) in history.calls.iter().enumerate() {
        let step = pair.step(call, tally).and_then(|outcome| {
            granted.push(outcome.granted.map(|ticket| ticket.number));
            pair.look(at, rhythm, tally)
        });
        if let Err(what) = step {
            return Err(Failure { at, what, granted });
        }
    }
    let last = history.calls.len().saturating_sub(1);
    pair.finish(tally).map_err(|what| Failure { at: last, what, granted })
}

/// Replays the histories of the seeds from this one on, so many calls at least; in the first of them,
/// `in_full` calls at least, the descents are compared after each call too. On a difference the
/// answer is the seed and the shortest history found that still shows one. A call that is counted as
/// something that the tally does not expect is an error too.
pub fn run(seed: u64, calls: u64, in_full: u64) -> Result<Tally, String> {
    let mut tally = Tally::default();
    for seed in seed.. {
        if tally.calls >= calls {
            break;
        }
        let rhythm = if tally.calls < in_full { 1 } else { RHYTHM };
        run_one(generate(seed), rhythm, &mut tally)?;
    }
    let unexpected = tally.unexpected();
    if unexpected.is_empty() {
        Ok(tally)
    } else {
        Err(format!("counted outside the tally's list: {unexpected:?}"))
    }
}

/// Replays one history; the answer is as that of `run`.
pub fn run_one(history: History, rhythm: usize, tally: &mut Tally) -> Result<(), String> {
    replay(&history, rhythm, tally).map_err(|failure| shrink::report(history, failure))
}
