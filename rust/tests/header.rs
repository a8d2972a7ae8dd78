//! The constants of this crate against those of include/tickets.h, which a C compiler is asked to compare,
//! the layout of what crosses the border, and the functions, which are declared in the header's order.

use std::collections::BTreeSet;
use std::io::Write;
use std::mem::{align_of, offset_of, size_of};
use std::path::Path;
use std::process::{Command, Stdio};

/// The header, and the declarations of its functions in Rust.
const HEADER: &str = include_str!("../../include/tickets.h");
const DECLARATIONS: &str = include_str!("../src/raw.rs");

/// An assertion in C for each constant, under its name in the header.
macro_rules! assertions {
    ($($name:ident)*) => {
        [$(format!("_Static_assert(TICKETS_{} == {}, \"\");\n", stringify!($name), tickets::$name)),*]
    };
}

/// The same for each error number.
macro_rules! errors {
    ($($name:ident)*) => {
        [$(format!(
            "_Static_assert(TICKETS_{} == {}, \"\");\n",
            stringify!($name),
            tickets::Error::$name.number(),
        )),*]
    };
}

/// All of them.
fn assertions() -> String {
    let constants = assertions! {
        VERSION LONGEST_RECORD LONGEST_NAME ACCOUNT_LIMIT TICKET_LIMIT TRAIL_LIMIT LAYOUT ACCOUNTS
        LEDGER SAVED FLAG_DISABLED FLAG_BARRED FLAG_TRUSTED FLAG_SERVICE NO_ACCOUNT ACCOUNT_SET
        ACCOUNT_FLAGS ACCOUNT_SEND ACCOUNT_RECEIVE ACCOUNT_LIFETIME ACCOUNT_NAME_LENGTH
        ACCOUNT_FIELDS TICKET_NUMBER TICKET_FLAGS TICKET_CLIENT TICKET_SERVICE TICKET_START
        TICKET_END TICKET_TGT TICKET_EVIDENCE TICKET_TRAIL_LENGTH TICKET_BARRED TICKET_ORIGIN
        TICKET_TRAIL TICKET_FIELDS KIND_INITIAL KIND_DIRECT KIND_S4U2SELF KIND_S4U2PROXY
        KDC_OPT_FORWARDABLE KDC_OPT_CNAME_IN_ADDL_TKT
        PAC_OPT_RESOURCE_BASED_CONSTRAINED_DELEGATION TKT_FLG_FORWARDABLE TKT_FLG_INITIAL
        FIELD_OPTIONS FIELD_PAC_OPTIONS FIELD_TILL LONGEST_REQUEST REQUEST_KIND REQUEST_OPTIONS
        REQUEST_PAC_OPTIONS REQUEST_TILL REQUEST_TGT REQUEST_EVIDENCE REQUEST_USER_AT
        REQUEST_USER_LENGTH REQUEST_SERVICE_AT REQUEST_SERVICE_LENGTH REQUEST_FIELDS
    };
    let errors = errors! {
        KDC_ERR_C_PRINCIPAL_UNKNOWN KDC_ERR_S_PRINCIPAL_UNKNOWN KDC_ERR_PRINCIPAL_NOT_UNIQUE
        KDC_ERR_NEVER_VALID KDC_ERR_POLICY KDC_ERR_BADOPTION KDC_ERR_CLIENT_REVOKED
        KDC_ERR_SERVER_NOMATCH KDC_ERR_SVC_UNAVAILABLE KRB_AP_ERR_TKT_EXPIRED KRB_AP_ERR_TKT_NYV
        KRB_AP_ERR_NOT_US KRB_AP_ERR_MODIFIED KRB_ERR_RESPONSE_TOO_BIG KRB_ERR_GENERIC
        KRB_ERR_FIELD_TOOLONG
    };
    constants.concat() + &errors.concat() + &layouts()
}

/// The sizes and places of the structures.
fn layouts() -> String {
    let sizes = [
        ("tickets_answer", size_of::<tickets::raw::Answer>(), align_of::<tickets::raw::Answer>()),
        ("tickets_service", size_of::<tickets::Service>(), align_of::<tickets::Service>()),
    ];
    let places = [
        ("tickets_answer, value", offset_of!(tickets::raw::Answer, value)),
        ("tickets_service, ledger", offset_of!(tickets::Service, ledger)),
    ];
    let sizes = sizes.map(|(name, size, align)| {
        format!("_Static_assert(sizeof({name}) == {size} && _Alignof({name}) == {align}, \"\");\n")
    });
    let places =
        places.map(|(name, at)| format!("_Static_assert(offsetof({name}) == {at}, \"\");\n"));
    sizes.concat() + &places.concat()
}

#[test]
fn the_constants_are_those_of_the_header() {
    let folder = Path::new(env!("CARGO_MANIFEST_DIR")).join("../include");
    let mut compiler = Command::new("cc");
    compiler.args(["-std=c11", "-Wall", "-Werror", "-fsyntax-only", "-x", "c", "-"]);
    compiler.arg("-I").arg(folder).stdin(Stdio::piped());
    let mut running = compiler.spawn().expect("a C compiler");
    let mut source = running.stdin.take().expect("the compiler reads");
    let text = format!("#include \"tickets.h\"\n{}", assertions());
    source.write_all(text.as_bytes()).expect("the compiler reads");
    drop(source);
    assert!(running.wait().expect("the compiler ends").success(), "{text}");
}

/// The names in a text that begin so.
fn names<'a>(text: &'a str, start: &'a str) -> impl Iterator<Item = &'a str> {
    let words = text.split(|letter: char| !letter.is_ascii_alphanumeric() && letter != '_');
    words.filter(move |word| word.starts_with(start))
}

#[test]
fn no_constant_of_the_header_is_left_out() {
    // The guard is no constant, and the text is compared below.
    let mut left_out: BTreeSet<&str> = names(HEADER, "TICKETS_").collect();
    let assertions = assertions();
    for name in names(&assertions, "TICKETS_").chain(["TICKETS_H", "TICKETS_VERSION_TEXT"]) {
        left_out.remove(name);
    }
    assert_eq!(left_out, BTreeSet::new());
}

#[test]
fn the_functions_are_declared_in_the_header_s_order() {
    let declared = |line: &&str| line.contains("tickets_") && !line.starts_with("static");
    let at_edge =
        HEADER.lines().filter(|line| line.starts_with(|letter: char| letter.is_alphabetic()));
    let in_header = at_edge.filter(declared).filter_map(|line| {
        let (head, _) = line.split_once('(')?;
        head.rsplit(' ').next()
    });
    let in_rust = DECLARATIONS.lines().filter_map(|line| {
        let (name, _) = line.strip_prefix("    fn ")?.split_once('(')?;
        Some(name)
    });
    let in_header: Vec<&str> = in_header.collect();
    assert_eq!(in_header, in_rust.collect::<Vec<_>>());
    assert_eq!(in_header.len(), 19);
}

#[test]
fn the_library_is_of_the_header_s_version() {
    let text = format!("#define TICKETS_VERSION_TEXT \"{}\"\n", tickets::VERSION_TEXT);
    assert!(HEADER.contains(&text), "{text}");
    assert_eq!(tickets::raw::version(), tickets::VERSION);
    assert_eq!(tickets::raw::layout(), tickets::LAYOUT);
    let [major, minor, patch] =
        [10_000, 100, 1].map(|unit| tickets::VERSION / unit % 100).map(|part| part.to_string());
    assert_eq!([major, minor, patch].join("."), tickets::VERSION_TEXT);
}
