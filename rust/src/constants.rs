//! The constants of include/tickets.h, under their names there without `TICKETS_`.

/// The version of the header that this crate follows: 10000 for the major, 100 for the minor number.
pub const VERSION: u32 = 10000;
/// The same as text.
pub const VERSION_TEXT: &str = "1.0.0";

/// The fewest bytes that the output of a request has to have (R3.3).
pub const LONGEST_RECORD: usize = 31;
/// The bytes of the longest name of an account (R2.5).
pub const LONGEST_NAME: usize = 24;
/// How many accounts there are, numbered from 0 on (R2.1).
pub const ACCOUNT_LIMIT: usize = 64;
/// How many tickets a ledger has places for (R7.1).
pub const TICKET_LIMIT: usize = 512;
/// How many accounts the longest trail has (R3.2).
pub const TRAIL_LIMIT: usize = 8;

/// The number of the words' layout, which a saved service has (R7.8).
pub const LAYOUT: u32 = 3;
/// How many words the accounts have.
pub const ACCOUNTS: usize = 520;
/// How many words the ledger has.
pub const LEDGER: usize = 2184;
/// How many bytes a saved service has (R7.8).
pub const SAVED: usize = 21664;

/// Flag of an account: it gets and serves no tickets (R2.2).
pub const FLAG_DISABLED: u32 = 1;
/// Flag of an account: nobody hops in its name (R2.2).
pub const FLAG_BARRED: u32 = 2;
/// Flag of an account: TrustedToAuthenticationForDelegation (R2.2).
pub const FLAG_TRUSTED: u32 = 4;
/// Flag of an account: it may be named as a service, and may use S4U2self (R2.2).
pub const FLAG_SERVICE: u32 = 8;

/// What [`raw::find_name`](crate::raw::find_name) answers where no account's name matches (R2.11).
pub const NO_ACCOUNT: u32 = 64;

/// Place in [`AccountFields`](crate::raw::AccountFields): 1 where the account is set, else 0.
pub const ACCOUNT_SET: usize = 0;
/// Place in [`AccountFields`](crate::raw::AccountFields): the flags that stand.
pub const ACCOUNT_FLAGS: usize = 1;
/// Place in [`AccountFields`](crate::raw::AccountFields): the send set, bit n for account n.
pub const ACCOUNT_SEND: usize = 2;
/// Place in [`AccountFields`](crate::raw::AccountFields): the receive set, bit n for account n.
pub const ACCOUNT_RECEIVE: usize = 3;
/// Place in [`AccountFields`](crate::raw::AccountFields): the lifetime in seconds.
pub const ACCOUNT_LIFETIME: usize = 4;
/// Place in [`AccountFields`](crate::raw::AccountFields): the bytes of the name.
pub const ACCOUNT_NAME_LENGTH: usize = 5;
/// How many places [`AccountFields`](crate::raw::AccountFields) has.
pub const ACCOUNT_FIELDS: usize = 6;

/// Place in [`TicketFields`](crate::raw::TicketFields): the ticket's number.
pub const TICKET_NUMBER: usize = 0;
/// Place in [`TicketFields`](crate::raw::TicketFields): the ticket flags.
pub const TICKET_FLAGS: usize = 1;
/// Place in [`TicketFields`](crate::raw::TicketFields): the account that the ticket speaks for.
pub const TICKET_CLIENT: usize = 2;
/// Place in [`TicketFields`](crate::raw::TicketFields): the account that the ticket is for.
pub const TICKET_SERVICE: usize = 3;
/// Place in [`TicketFields`](crate::raw::TicketFields): the start in seconds.
pub const TICKET_START: usize = 4;
/// Place in [`TicketFields`](crate::raw::TicketFields): the end in seconds.
pub const TICKET_END: usize = 5;
/// Place in [`TicketFields`](crate::raw::TicketFields): the number of the TGT.
pub const TICKET_TGT: usize = 6;
/// Place in [`TicketFields`](crate::raw::TicketFields): the number of the evidence.
pub const TICKET_EVIDENCE: usize = 7;
/// Place in [`TicketFields`](crate::raw::TicketFields): how many accounts the trail has.
pub const TICKET_TRAIL_LENGTH: usize = 8;
/// Place in [`TicketFields`](crate::raw::TicketFields): 1 where it has the barred mark, else 0.
pub const TICKET_BARRED: usize = 9;
/// Place in [`TicketFields`](crate::raw::TicketFields): the kind of request that made it.
pub const TICKET_ORIGIN: usize = 10;
/// The first of the places in [`TicketFields`](crate::raw::TicketFields) that have the trail.
pub const TICKET_TRAIL: usize = 11;
/// How many places [`TicketFields`](crate::raw::TicketFields) has.
pub const TICKET_FIELDS: usize = TICKET_TRAIL + TRAIL_LIMIT;

/// Kind of a request: initial (R4.2).
pub const KIND_INITIAL: u32 = 1;
/// Kind of a request: direct (R4.2).
pub const KIND_DIRECT: u32 = 2;
/// Kind of a request: S4U2self (R4.2).
pub const KIND_S4U2SELF: u32 = 3;
/// Kind of a request: S4U2proxy (R4.2).
pub const KIND_S4U2PROXY: u32 = 4;

/// Option of a request: the ticket is asked to be forwardable (R4.4).
pub const KDC_OPT_FORWARDABLE: u32 = 0x4000_0000;
/// Option of a request of kind 4, where it must be set (R4.4).
pub const KDC_OPT_CNAME_IN_ADDL_TKT: u32 = 0x0002_0000;
/// PAC option of a request: it opens the resource route (R4.4).
pub const PAC_OPT_RESOURCE_BASED_CONSTRAINED_DELEGATION: u32 = 0x1000_0000;

/// Flag of a ticket: it may be the evidence of the classic route (R3.4).
pub const TKT_FLG_FORWARDABLE: u32 = 0x4000_0000;
/// Flag of a ticket: it is an initial one (R3.4).
pub const TKT_FLG_INITIAL: u32 = 0x0040_0000;

/// Optional field of a request, by its bit in the map: options, which kind 4 always has (R4.1).
pub const FIELD_OPTIONS: u32 = 0x02;
/// Optional field of a request, by its bit in the map: PAC options, of kind 4 alone (R4.1).
pub const FIELD_PAC_OPTIONS: u32 = 0x04;
/// Optional field of a request, by its bit in the map: till (R4.1).
pub const FIELD_TILL: u32 = 0x08;

/// The bytes of the longest request.
pub const LONGEST_REQUEST: usize = 335;

/// Place in [`RequestFields`](crate::raw::RequestFields): the kind.
pub const REQUEST_KIND: usize = 0;
/// Place in [`RequestFields`](crate::raw::RequestFields): the options, 0 where there are none.
pub const REQUEST_OPTIONS: usize = 1;
/// Place in [`RequestFields`](crate::raw::RequestFields): the PAC options, 0 where there are none.
pub const REQUEST_PAC_OPTIONS: usize = 2;
/// Place in [`RequestFields`](crate::raw::RequestFields): till; 0 is no wish.
pub const REQUEST_TILL: usize = 3;
/// Place in [`RequestFields`](crate::raw::RequestFields): the number of the TGT.
pub const REQUEST_TGT: usize = 4;
/// Place in [`RequestFields`](crate::raw::RequestFields): the number of the evidence.
pub const REQUEST_EVIDENCE: usize = 5;
/// Place in [`RequestFields`](crate::raw::RequestFields): where the user's name starts.
pub const REQUEST_USER_AT: usize = 6;
/// Place in [`RequestFields`](crate::raw::RequestFields): the bytes of the user's name.
pub const REQUEST_USER_LENGTH: usize = 7;
/// Place in [`RequestFields`](crate::raw::RequestFields): where the service's name starts.
pub const REQUEST_SERVICE_AT: usize = 8;
/// Place in [`RequestFields`](crate::raw::RequestFields): the bytes of the service's name.
pub const REQUEST_SERVICE_LENGTH: usize = 9;
/// How many places [`RequestFields`](crate::raw::RequestFields) has.
pub const REQUEST_FIELDS: usize = 10;
