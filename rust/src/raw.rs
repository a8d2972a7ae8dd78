//! The calls of include/tickets.h one by one: slices and arrays in the place of pointers, and the plain
//! error numbers. The layer above them is what a program mostly wants; these serve where memory is lent
//! in other ways, or where an answer is compared number by number.

use crate::account::Edit;
use crate::constants::{
    ACCOUNTS, ACCOUNT_FIELDS, LEDGER, LONGEST_NAME, REQUEST_FIELDS, TICKET_FIELDS,
};
use crate::errors::Error;
use crate::request::Request;

/// The words of the accounts.
pub type AccountWords = [u64; ACCOUNTS];
/// The words of the ledger.
pub type LedgerWords = [u64; LEDGER];
/// What [`account`] gives, by the places `ACCOUNT_SET` and so on.
pub type AccountFields = [u64; ACCOUNT_FIELDS];
/// The name that [`account`] gives, and zeros behind it.
pub type NameBytes = [u8; LONGEST_NAME];
/// What [`ticket_at`] gives, by the places `TICKET_NUMBER` and so on.
pub type TicketFields = [u64; TICKET_FIELDS];
/// What [`read_request`] gives, by the places `REQUEST_KIND` and so on.
pub type RequestFields = [u64; REQUEST_FIELDS];

/// What a call answers: 0 and a value, or an error number and 0, which then stands for nothing.
#[derive(Clone, Copy, Debug, PartialEq, Eq)]
#[repr(C)]
pub struct Answer {
    /// The error number, 0 for none.
    pub error: u32,
    /// The result.
    pub value: u32,
}

impl Answer {
    /// The value, or why there is none.
    pub fn result(self) -> Result<u32, Error> {
        Error::check(self.error).map(|()| self.value)
    }

    /// The same for a value that is a length.
    pub fn length(self) -> Result<usize, Error> {
        self.result().map(|value| value as usize)
    }
}

extern "C" {
    fn tickets_version() -> u32;

    fn tickets_layout() -> u32;

    fn tickets_fresh(accounts: *mut u64, ledger: *mut u64);

    fn tickets_edit(
        accounts: *mut u64,
        number: u32,
        name: *const u8,
        name_len: usize,
        flags: u32,
        send: u64,
        receive: u64,
        lifetime: u32,
    ) -> u32;

    fn tickets_find_name(accounts: *const u64, name: *const u8, name_len: usize) -> u32;

    fn tickets_request(
        accounts: *mut u64,
        ledger: *mut u64,
        request: *const u8,
        request_len: usize,
        clock: u32,
        output: *mut u8,
        output_len: usize,
    ) -> Answer;

    fn tickets_clear(accounts: *mut u64, ledger: *mut u64, clock: u32) -> u32;

    fn tickets_descent(ledger: *const u64, number: u32) -> Answer;

    fn tickets_day_total(ledger: *const u64) -> u64;

    fn tickets_account(accounts: *const u64, number: u32, fields: *mut u64, name: *mut u8) -> u32;

    fn tickets_held(ledger: *const u64) -> u32;

    fn tickets_record_at(
        ledger: *const u64,
        place: u32,
        output: *mut u8,
        output_len: usize,
    ) -> Answer;

    fn tickets_ticket_at(ledger: *const u64, place: u32, fields: *mut u64) -> u32;

    fn tickets_save(
        accounts: *const u64,
        ledger: *const u64,
        output: *mut u8,
        output_len: usize,
    ) -> Answer;

    fn tickets_load(
        accounts: *mut u64,
        ledger: *mut u64,
        saved: *const u8,
        saved_len: usize,
    ) -> u32;

    fn tickets_words_match(a: u64, b: u64) -> u32;

    fn tickets_write_request(
        kind: u32,
        options: u32,
        pac_options: u32,
        till: u32,
        tgt: *const u8,
        tgt_len: usize,
        evidence: *const u8,
        evidence_len: usize,
        user: *const u8,
        user_len: usize,
        service: *const u8,
        service_len: usize,
        fields: u32,
        output: *mut u8,
        output_len: usize,
    ) -> Answer;

    fn tickets_rewrite(
        record: *const u8,
        record_len: usize,
        output: *mut u8,
        output_len: usize,
    ) -> Answer;

    fn tickets_read_request(request: *const u8, request_len: usize, fields: *mut u64) -> u32;
}

/// `tickets_version`.
pub fn version() -> u32 {
    // SAFETY: the call is given no memory.
    unsafe { tickets_version() }
}

/// `tickets_layout`.
pub fn layout() -> u32 {
    // SAFETY: the call is given no memory.
    unsafe { tickets_layout() }
}

/// `tickets_fresh`.
pub fn fresh(accounts: &mut AccountWords, ledger: &mut LedgerWords) {
    // SAFETY: the arrays have as many words as the call sets, and are borrowed mutably.
    unsafe { tickets_fresh(accounts.as_mut_ptr(), ledger.as_mut_ptr()) }
}

/// `tickets_edit`.
pub fn edit(accounts: &mut AccountWords, edit: &Edit) -> u32 {
    let Edit { number, name, flags, send, receive, lifetime } = *edit;
    let (words, length) = (accounts.as_mut_ptr(), name.len());
    // SAFETY: the accounts have as many words as the call takes, and the name is a slice, valid for
    // its length, which the accounts do not overlap because they are borrowed mutably.
    unsafe { tickets_edit(words, number, name.as_ptr(), length, flags, send, receive, lifetime) }
}

/// `tickets_find_name`.
pub fn find_name(accounts: &AccountWords, name: &[u8]) -> u32 {
    // SAFETY: the accounts have as many words as the call reads, and the name is a slice, valid for
    // its length.
    unsafe { tickets_find_name(accounts.as_ptr(), name.as_ptr(), name.len()) }
}

/// `tickets_request`.
pub fn request(
    accounts: &mut AccountWords,
    ledger: &mut LedgerWords,
    request: &[u8],
    clock: u32,
    output: &mut [u8],
) -> Answer {
    // SAFETY: the arrays have as many words as the call takes; request and output are slices, valid
    // for their lengths. What is written is borrowed mutably, so nothing overlaps it.
    unsafe {
        tickets_request(
            accounts.as_mut_ptr(),
            ledger.as_mut_ptr(),
            request.as_ptr(),
            request.len(),
            clock,
            output.as_mut_ptr(),
            output.len(),
        )
    }
}

/// `tickets_clear`.
pub fn clear(accounts: &mut AccountWords, ledger: &mut LedgerWords, clock: u32) -> u32 {
    // SAFETY: the arrays have as many words as the call takes, and are borrowed mutably.
    unsafe { tickets_clear(accounts.as_mut_ptr(), ledger.as_mut_ptr(), clock) }
}

/// `tickets_descent`.
pub fn descent(ledger: &LedgerWords, number: u32) -> Answer {
    // SAFETY: the ledger has as many words as the call reads.
    unsafe { tickets_descent(ledger.as_ptr(), number) }
}

/// `tickets_day_total`.
pub fn day_total(ledger: &LedgerWords) -> u64 {
    // SAFETY: the ledger has as many words as the call reads.
    unsafe { tickets_day_total(ledger.as_ptr()) }
}

/// `tickets_account`.
pub fn account(
    accounts: &AccountWords,
    number: u32,
    fields: &mut AccountFields,
    name: &mut NameBytes,
) -> u32 {
    // SAFETY: the accounts have as many words as the call reads, fields and name as many places as it
    // sets. What is written is borrowed mutably, so nothing overlaps it.
    unsafe { tickets_account(accounts.as_ptr(), number, fields.as_mut_ptr(), name.as_mut_ptr()) }
}

/// `tickets_held`.
pub fn held(ledger: &LedgerWords) -> u32 {
    // SAFETY: the ledger has as many words as the call reads.
    unsafe { tickets_held(ledger.as_ptr()) }
}

/// `tickets_record_at`.
pub fn record_at(ledger: &LedgerWords, place: u32, output: &mut [u8]) -> Answer {
    // SAFETY: the ledger has as many words as the call reads, and the output is a slice, valid for its
    // length, which the ledger does not overlap because it is borrowed mutably.
    unsafe { tickets_record_at(ledger.as_ptr(), place, output.as_mut_ptr(), output.len()) }
}

/// `tickets_ticket_at`.
pub fn ticket_at(ledger: &LedgerWords, place: u32, fields: &mut TicketFields) -> u32 {
    // SAFETY: the ledger has as many words as the call reads, and the fields are as many as it sets;
    // they are borrowed mutably, so the ledger does not overlap them.
    unsafe { tickets_ticket_at(ledger.as_ptr(), place, fields.as_mut_ptr()) }
}

/// `tickets_save`.
pub fn save(accounts: &AccountWords, ledger: &LedgerWords, output: &mut [u8]) -> Answer {
    let (bytes, length) = (output.as_mut_ptr(), output.len());
    // SAFETY: the arrays have as many words as the call reads, and the output is a slice, valid for its
    // length, which they do not overlap because it is borrowed mutably.
    unsafe { tickets_save(accounts.as_ptr(), ledger.as_ptr(), bytes, length) }
}

/// `tickets_load`.
pub fn load(accounts: &mut AccountWords, ledger: &mut LedgerWords, saved: &[u8]) -> u32 {
    let (bytes, length) = (saved.as_ptr(), saved.len());
    // SAFETY: the arrays have as many words as the call sets, and the bytes are a slice, valid for its
    // length, which the arrays do not overlap because they are borrowed mutably.
    unsafe { tickets_load(accounts.as_mut_ptr(), ledger.as_mut_ptr(), bytes, length) }
}

/// `tickets_words_match`.
pub fn words_match(a: u64, b: u64) -> u32 {
    // SAFETY: the call is given no memory.
    unsafe { tickets_words_match(a, b) }
}

/// `tickets_write_request`.
pub fn write_request(parts: &Request, output: &mut [u8]) -> Answer {
    let Request { kind, options, pac_options, till, tgt, evidence, user, service, fields } = *parts;
    // SAFETY: all pointers are those of slices, valid for their lengths, and the output is borrowed
    // mutably, so that it overlaps none of the others.
    unsafe {
        tickets_write_request(
            kind,
            options,
            pac_options,
            till,
            tgt.as_ptr(),
            tgt.len(),
            evidence.as_ptr(),
            evidence.len(),
            user.as_ptr(),
            user.len(),
            service.as_ptr(),
            service.len(),
            fields,
            output.as_mut_ptr(),
            output.len(),
        )
    }
}

/// `tickets_rewrite`.
pub fn rewrite(record: &[u8], output: &mut [u8]) -> Answer {
    // SAFETY: the pointers are those of two slices, valid for their lengths, and the output is
    // borrowed mutably, so that it does not overlap the record.
    unsafe { tickets_rewrite(record.as_ptr(), record.len(), output.as_mut_ptr(), output.len()) }
}

/// `tickets_read_request`.
pub fn read_request(request: &[u8], fields: &mut RequestFields) -> u32 {
    // SAFETY: the request is a slice, valid for its length, and the fields are as many as the call
    // sets; they are borrowed mutably, so the request does not overlap them.
    unsafe { tickets_read_request(request.as_ptr(), request.len(), fields.as_mut_ptr()) }
}
