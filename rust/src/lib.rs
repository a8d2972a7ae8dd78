//! The ticket service of S4U2self and S4U2proxy: safe Rust over libtickets, whose C header is
//! include/tickets.h. Numbers such as R6.2 are those of its rules, docs/RULES.md.
//!
//! A [`Service`] has its accounts and its tickets in memory of its own, without pointers. Requests are
//! bytes, written by [`Request`]; a ticket is a [`Record`], which later requests present.
//!
//! ```
//! use tickets::{Edit, Request, Service, FLAG_SERVICE, FLAG_TRUSTED};
//!
//! let mut service = Service::fresh();
//! let lifetime = 36_000;
//! service.edit(&Edit { number: 0, name: b"tech", lifetime, ..Edit::default() })?;
//! let flags = FLAG_TRUSTED | FLAG_SERVICE;
//! service.edit(&Edit { number: 1, name: b"web", flags, send: 1 << 2, receive: 0, lifetime })?;
//! let flags = FLAG_SERVICE;
//! service.edit(&Edit { number: 2, name: b"store", flags, lifetime, ..Edit::default() })?;
//!
//! let tgt = service.request(&Request::initial(b"web").to_vec()?, 1000)?;
//! let evidence = service.request(&Request::s4u2self(&tgt, b"tech").to_vec()?, 1010)?;
//! let hop = Request::s4u2proxy(&tgt, &evidence, b"store").to_vec()?;
//! service.request(&hop, 1020)?;
//! assert_eq!(service.tickets().last().map(|ticket| ticket.trail().to_vec()), Some(vec![1]));
//!
//! let restarted = Service::from_saved(&service.to_saved())?;
//! assert!(restarted == service);
//! # Ok::<(), tickets::Error>(())
//! ```
//!
//! The build looks for the library in the folder TICKETS_LIB_DIR, or else where pkg-config says. It links
//! the shared library, or the static one where the folder has no other or TICKETS_STATIC is 1.

#![deny(missing_docs)]

mod account;
mod constants;
mod errors;
pub mod raw;
mod request;
mod service;
mod ticket;

pub use account::{Account, Edit};
pub use constants::*;
pub use errors::{error_name, Error};
pub use request::{ReadRequest, Request};
pub use service::Service;
pub use ticket::{Origin, Record, Ticket};
