//! The tour of examples/c/morning.c in Rust: the morning of R11.3, then a save, a load into other memory,
//! and a clearing. Prints who acted for whom; where an answer is not the one that is expected, a line on
//! standard error says which, and the program ends with 1.

use std::error::Error;
use std::process::ExitCode;
use tickets::{raw, Edit, Origin, Record, Request, Service, Ticket};
use tickets::{FLAG_SERVICE, FLAG_TRUSTED, LAYOUT, VERSION};

/// What a step of the tour gives, or why it is not as expected.
type Step<T> = Result<T, Box<dyn Error>>;

/// The name of an account.
fn name_of(service: &Service, number: u8) -> Step<String> {
    let account = service.account(number.into())?.ok_or("an account that is not set")?;
    Ok(String::from_utf8(account.name().to_vec())?)
}

/// A line on a ticket: its number, who acts for whom, and until when.
fn describe(service: &Service, ticket: &Ticket) -> Step<String> {
    let (client, to) = (name_of(service, ticket.client)?, name_of(service, ticket.service)?);
    let words = match ticket.origin {
        Origin::Initial => format!("{client} signed on"),
        Origin::Direct { .. } => format!("{client} to {to}"),
        Origin::S4U2self { .. } => format!("{to} for {client}, to itself"),
        Origin::S4U2proxy { .. } => {
            let names = ticket.trail().iter().map(|&number| name_of(service, number));
            let trail = names.collect::<Step<Vec<_>>>()?;
            let asked = trail.last().ok_or("a delegated ticket without a trail")?;
            format!("{asked} for {client}, to {to}, via {}", trail.join(", via "))
        }
    };
    Ok(format!("{}  {words}, until {}", ticket.number, ticket.end))
}

/// Asks for a ticket, and prints it; it is the ledger's last. Gives its record.
fn granted(service: &mut Service, asked: Request, clock: u32) -> Step<Record> {
    let record = service.request(&asked.to_vec()?, clock)?;
    let ticket = service.tickets().last().ok_or("a grant that is not held")?;
    println!("at {clock} granted: {}", describe(service, &ticket)?);
    Ok(record)
}

/// How much the service holds.
fn print_held(service: &Service) {
    println!("held: {} tickets, {} seconds", service.held(), service.day_total());
}

/// The library that is loaded has to have the crate's major number and its layout.
fn check_library() -> Step<()> {
    if raw::version() / 10_000 != VERSION / 10_000 || raw::layout() != LAYOUT {
        return Err("the library's version or layout".into());
    }
    Ok(())
}

/// W1 to W4; gives the page's TGT.
fn morning(service: &mut Service) -> Step<Record> {
    let lifetime = 36_000;
    let (page, kept) = (FLAG_TRUSTED | FLAG_SERVICE, FLAG_SERVICE);
    service.edit(&Edit { number: 0, name: b"tech", lifetime, ..Edit::default() })?;
    service.edit(&Edit {
        number: 1,
        name: b"web",
        flags: page,
        send: 1 << 2,
        receive: 0,
        lifetime,
    })?;
    service.edit(&Edit { number: 2, name: b"store", flags: kept, lifetime, ..Edit::default() })?;

    let tgt = granted(service, Request::initial(b"web"), 1000)?;
    let evidence = granted(service, Request::s4u2self(&tgt, b"tech"), 1010)?;
    let hop = Request::s4u2proxy(&tgt, &evidence, b"store");
    granted(service, hop, 1020)?;
    match service.request(&hop.to_vec()?, 37_000) {
        Err(error @ tickets::Error::KRB_AP_ERR_TKT_EXPIRED) => {
            println!("at 37000 refused: {error}")
        }
        other => return Err(format!("{other:?} at the TGT's end").into()),
    }
    print_held(service);
    Ok(tgt)
}

/// All of it.
fn tour() -> Step<()> {
    check_library()?;
    let mut first = Service::fresh();
    let tgt = morning(&mut first)?;

    let saved = first.to_saved();
    println!("saved: {} bytes", saved.len());
    let mut second = Service::from_saved(&saved)?;
    if second != first {
        return Err("what is held after a load".into());
    }
    println!("loaded, and held again:");
    for ticket in second.tickets() {
        println!("{}", describe(&second, &ticket)?);
    }

    granted(&mut second, Request::direct(&tgt, b"store"), 36_999)?;
    let (held, cleared) = (second.held(), second.clear(37_000));
    if cleared != held {
        return Err("a clearing of all tickets".into());
    }
    println!("cleared at 37000: {cleared} tickets");
    print_held(&second);
    Ok(())
}

fn main() -> ExitCode {
    match tour() {
        Ok(()) => ExitCode::SUCCESS,
        Err(error) => {
            eprintln!("morning: not as expected: {error}");
            ExitCode::FAILURE
        }
    }
}
