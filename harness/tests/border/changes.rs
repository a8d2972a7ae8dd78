//! Wrong texts, each of which has to be found.

const HEADER: &str = "include/tickets.h";
const EXPORTS: &str = "crates/tickets/src/lib.rt";
const RAW: &str = "rust/src/raw.rs";
const MANUAL: &str = "man/tickets.3";
const PYTHON: &str = "examples/python/tickets.py";

/// A text that is wrong in one place.
pub struct Change {
    /// The file.
    pub path: &'static str,
    /// What stands there once.
    pub right: &'static str,
    /// What would stand there instead.
    pub wrong: &'static str,
    /// What the finding has to name.
    pub named: &'static str,
}

const fn change(
    path: &'static str,
    right: &'static str,
    wrong: &'static str,
    named: &'static str,
) -> Change {
    Change { path, right, wrong, named }
}

/// The answer's fields and the parameters of a function in another order.
pub const ORDERS: &[Change] = &[
    change(HEADER, "error;\n    uint32_t value;", "value;\n    uint32_t error;", "tickets_answer"),
    change(
        EXPORTS,
        "pub error: u32,\n    pub value: u32,",
        "pub value: u32,\n    pub error: u32,",
        "tickets_answer",
    ),
    change(RAW, "pub error: u32,", "pub error: u64,", "tickets_answer"),
    change(
        HEADER,
        "send,\n                      uint64_t receive,",
        "receive, uint64_t send,",
        "tickets_edit",
    ),
    change(
        EXPORTS,
        "send: u64,\n    receive: u64,",
        "receive: u64,\n    send: u64,",
        "tickets_edit",
    ),
    change(
        RAW,
        "send: u64,\n        receive: u64,",
        "receive: u64,\n        send: u64,",
        "tickets_edit",
    ),
    change(
        HEADER,
        "tickets_fresh(uint64_t *accounts, uint64_t *ledger)",
        "tickets_fresh(uint64_t *ledger, uint64_t *accounts)",
        "tickets_fresh",
    ),
    change(
        EXPORTS,
        "tickets_fresh(accounts: &mut AccountWords, ledger: &mut LedgerWords)",
        "tickets_fresh(ledger: &mut LedgerWords, accounts: &mut AccountWords)",
        "tickets_fresh",
    ),
    change(
        RAW,
        "tickets_fresh(accounts: *mut u64, ledger: *mut u64)",
        "tickets_fresh(ledger: *mut u64, accounts: *mut u64)",
        "tickets_fresh",
    ),
    change(
        HEADER,
        "name_len, flags, send, receive, lifetime);\n}",
        "name_len, flags, receive, send, lifetime);\n}",
        "tickets_service_edit",
    ),
];

/// A function dropped, renamed, or not exported.
pub const NAMES: &[Change] = &[
    change(HEADER, "uint64_t tickets_day_total(const uint64_t *ledger);", "", "tickets_day_total"),
    change(EXPORTS, "fn tickets_day_total", "fn tickets_total", "tickets_day_total"),
    change(EXPORTS, "pub extern \"C\" fn tickets_clear", "pub fn tickets_clear", "tickets_clear"),
    change(
        EXPORTS,
        "#[unsafe(no_mangle)]\npub extern \"C\" fn tickets_held",
        "pub extern \"C\" fn tickets_held",
        "tickets_held",
    ),
    change(RAW, "    fn tickets_day_total(ledger: *const u64) -> u64;", "", "tickets_day_total"),
];

/// Another width, other words, and a promise to write nothing dropped.
pub const TYPES: &[Change] = &[
    change(
        HEADER,
        "tickets_clear(uint64_t *accounts, uint64_t *ledger, uint32_t clock)",
        "tickets_clear(uint64_t *accounts, uint64_t *ledger, uint64_t clock)",
        "tickets_clear",
    ),
    change(
        EXPORTS,
        "tickets_descent(ledger: &LedgerWords, number: u32)",
        "tickets_descent(ledger: &LedgerWords, number: u64)",
        "tickets_descent",
    ),
    change(HEADER, "uint64_t tickets_day_total", "uint32_t tickets_day_total", "tickets_day_total"),
    change(EXPORTS, "(a: u64, b: u64) -> u32", "(a: u64, b: u64) -> u64", "tickets_words_match"),
    change(
        RAW,
        "tickets_descent(ledger: *const u64, number: u32)",
        "tickets_descent(ledger: *const u64, number: u64)",
        "tickets_descent",
    ),
    change(
        EXPORTS,
        "tickets_day_total(ledger: &LedgerWords)",
        "tickets_day_total(ledger: &AccountWords)",
        "TICKETS_LEDGER",
    ),
    change(
        HEADER,
        "tickets_find_name(const uint64_t *accounts, const",
        "tickets_find_name(uint64_t *accounts, const",
        "tickets_find_name",
    ),
    change(
        EXPORTS,
        "tickets_find_name(accounts: &AccountWords",
        "tickets_find_name(accounts: &mut AccountWords",
        "tickets_find_name",
    ),
    change(
        RAW,
        "fn tickets_find_name(accounts: *const u64",
        "fn tickets_find_name(accounts: *mut u64",
        "tickets_find_name",
    ),
    change(MANUAL, "tickets_descent(const uint64_t", "tickets_descent(uint64_t", "tickets_descent"),
    change(PYTHON, "(c_uint64, [WORDS])", "(c_uint32, [WORDS])", "tickets_day_total"),
];

/// Another value of a constant, and the name of an error that is another's.
pub const VALUES: &[Change] = &[
    change(HEADER, "LONGEST_RECORD = 31", "LONGEST_RECORD = 32", "TICKETS_LONGEST_RECORD"),
    change(HEADER, "VERSION_TEXT \"", "VERSION_TEXT \"9", "TICKETS_VERSION_TEXT"),
    change(HEADER, "KDC_ERR_POLICY = 12", "KDC_ERR_POLICY = 14", "TICKETS_KDC_ERR_POLICY"),
    change(HEADER, "FLAG_TRUSTED = 4", "FLAG_TRUSTED = 16", "TICKETS_FLAG_TRUSTED"),
    change(
        HEADER,
        "return \"KDC_ERR_POLICY\"",
        "return \"KDC_ERR_BADOPTION\"",
        "tickets_error_name",
    ),
    change(
        "crates/definitions/src/limits.rt",
        "TICKET_LIMIT: usize = 512",
        "TICKET_LIMIT: usize = 511",
        "TICKETS_TICKET_LIMIT",
    ),
    change(
        "crates/definitions/src/error.rt",
        "Error::KRB_ERR_GENERIC => 60",
        "Error::KRB_ERR_GENERIC => 62",
        "TICKETS_KRB_ERR_GENERIC",
    ),
    change(
        EXPORTS,
        "RequestFields = [u64; 10]",
        "RequestFields = [u64; 11]",
        "TICKETS_REQUEST_FIELDS",
    ),
    change(
        "rust/src/constants.rs",
        "SAVED: usize = 21664",
        "SAVED: usize = 21656",
        "TICKETS_SAVED",
    ),
    change(MANUAL, "\n12  KDC_ERR_POLICY", "\n14  KDC_ERR_POLICY", "TICKETS_KDC_ERR_POLICY"),
    change(PYTHON, "    TRUSTED = 4", "    TRUSTED = 5", "TICKETS_FLAG_TRUSTED"),
    change(PYTHON, "MAJOR = 1", "MAJOR = 2", "TICKETS_MAJOR"),
    change(
        "rust/src/errors.rs",
        "KDC_ERR_POLICY = 12",
        "KDC_ERR_POLICY = 14",
        "TICKETS_KDC_ERR_POLICY",
    ),
];

/// What is not known.
pub const FORMS: &[Change] = &[
    change(
        HEADER,
        "uint32_t tickets_layout",
        "typedef int number;\nuint32_t tickets_layout",
        "not known",
    ),
    change(HEADER, "#include <stddef.h>", "#include <stddef.h>\n#pragma pack(1)", "not known"),
    change(EXPORTS, "tickets_rewrite(bytes: &[u8]", "tickets_rewrite(bytes: &[u16]", "not known"),
    change(
        EXPORTS,
        "#[unsafe(no_mangle)]\npub extern \"C\" fn tickets_layout",
        "#[no_mangle]\npub extern \"C\" fn tickets_layout",
        "not known",
    ),
    change(EXPORTS, "#[repr(C)]\n", "#[repr(C)]\n#[must_use]\n", "not known"),
    change(RAW, "fn tickets_words_match(a: u64", "fn tickets_words_match(a: i64", "not known"),
];
