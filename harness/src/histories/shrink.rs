//! Shortens a history that shows a difference, as long as it still shows one.

use super::draft::Draft;
use super::replay::{replay, Failure};
use super::{Call, History, Tally};
use crate::record::{read_ticket, Origin, Ticket};

/// The difference that a history shows when the states are compared in full at its end alone.
fn failure(history: &History) -> Option<Failure> {
    replay(history, usize::MAX, &mut Tally::default()).err()
}

/// The shortest history that was found, with its difference, to print.
pub fn report(history: History, found: Failure) -> String {
    let (seed, calls, at, what) = (history.seed, history.calls.len(), found.at, found.what.clone());
    let mut head = format!("seed {seed:#x}: of {calls} calls, after call {at}: {what}\n");
    let mut shrunk = Shrunk { history, failure: found };
    shrunk.history.calls.truncate(at + 1);
    if !shrunk.accept(shrunk.history.clone()) {
        head += "the history shows no difference when it is replayed\n";
        return head;
    }
    while shrunk.drop_calls() {}
    shrunk.clear_words();
    while shrunk.drop_calls() {}
    let Shrunk { history, failure } = shrunk;
    format!("{head}the shortest history that still fails: {history}  {}\n", failure.what)
}

/// A history, and the difference that it shows.
struct Shrunk {
    history: History,
    failure: Failure,
}

impl Shrunk {
    /// Takes the history in place of the one at hand, up to its difference, if it shows one.
    fn accept(&mut self, mut history: History) -> bool {
        let Some(failure) = failure(&history) else {
            return false;
        };
        history.calls.truncate(failure.at + 1);
        *self = Shrunk { history, failure };
        true
    }

    /// Leaves calls out, at first many at once and at last one by one. Whether some could be.
    fn drop_calls(&mut self) -> bool {
        let before = self.history.calls.len();
        let mut size = before.div_ceil(2);
        while size > 0 {
            let mut end = self.history.calls.len();
            while end > 0 {
                let start = end.saturating_sub(size);
                if !self.accept(self.without(start, end, true)) {
                    self.accept(self.without(start, end, false));
                }
                end = start.min(self.history.calls.len());
            }
            size /= 2;
        }
        self.history.calls.len() < before
    }

    /// The history without some calls. If so asked, the tickets of later requests take the numbers
    /// that they have then.
    fn without(&self, start: usize, end: usize, renumber: bool) -> History {
        let mut history = self.history.clone();
        history.calls.drain(start..end);
        if renumber {
            let granted = self.failure.granted.iter().take(end).skip(start);
            let dropped: Vec<u16> = granted.copied().flatten().collect();
            history.calls[start..].iter_mut().for_each(|call| renumber_call(call, &dropped));
        }
        history
    }

    /// Makes words of the beginning 0, at first many at once and at last one by one.
    fn clear_words(&mut self) {
        let Some(start) = self.history.start.clone() else {
            return;
        };
        let words = start.accounts.len() + start.ledger.len();
        let mut size = words / 4;
        while size > 0 {
            for from in (0..words).step_by(size) {
                let mut history = self.history.clone();
                if clear(&mut history, from, size) {
                    self.accept(history);
                }
            }
            size /= 2;
        }
    }
}

/// Makes some words of the beginning 0, counted over the accounts and then the ledger. Whether one
/// of them was not.
fn clear(history: &mut History, from: usize, size: usize) -> bool {
    let Some(start) = &mut history.start else {
        return false;
    };
    let words = start.accounts.iter_mut().chain(&mut start.ledger).skip(from).take(size);
    words.filter_map(|word| (std::mem::take(word) != 0).then_some(())).count() > 0
}

/// The number that a ticket has when these are not granted.
fn renumbered(number: u16, dropped: &[u16]) -> u16 {
    number - dropped.iter().filter(|&&other| other < number).count() as u16
}

/// Gives the tickets of a request the numbers that they have when these are not granted.
fn renumber_call(call: &mut Call, dropped: &[u16]) {
    let Call::Request { request, .. } = call else {
        return;
    };
    if let Some(mut draft) = Draft::of(request) {
        renumber_record(&mut draft.tgt, dropped);
        renumber_record(&mut draft.evidence, dropped);
        *request = draft.bytes();
    }
}

/// The same for a record, if it reads.
fn renumber_record(record: &mut Vec<u8>, dropped: &[u16]) {
    let Ok(ticket) = read_ticket(record) else {
        return;
    };
    let new = |number| renumbered(number, dropped);
    let origin = match ticket.origin {
        Origin::Initial => Origin::Initial,
        Origin::Direct { tgt } => Origin::Direct { tgt: new(tgt) },
        Origin::S4U2self { tgt } => Origin::S4U2self { tgt: new(tgt) },
        Origin::Delegated { tgt, evidence } => {
            Origin::Delegated { tgt: new(tgt), evidence: new(evidence) }
        }
    };
    let ticket = Ticket { number: new(ticket.number), origin, ..ticket };
    *record = super::draft::record(&ticket).expect("a ticket that was read has a record");
}
