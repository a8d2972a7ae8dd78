//! A second implementation, written from the rules (docs/RULES.md), to check the proved service
//! against; and the lists of calls that are made of both.

pub mod accounts;
pub mod book;
pub mod calls;
pub mod decisions;
pub mod errors;
#[cfg(test)]
mod fixtures;
#[cfg(feature = "library")]
pub mod histories;
pub mod limits;
pub mod matcher;
pub mod past;
pub mod random;
pub mod record;
pub mod request_writer;
pub mod samples;
pub mod saving;
pub mod service;
pub mod words;
