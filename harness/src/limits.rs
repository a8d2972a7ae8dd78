//! The limits of the service, each by its name, and the sizes of the lent words that follow from them
//! (docs/ARCHITECTURE.md has their layout).

/// R2.1: how many accounts there are; their numbers are those below it.
pub const ACCOUNT_LIMIT: usize = 64;

/// R2.5: the most bytes of a name.
pub const NAME_LIMIT: usize = 24;

/// R3.2: the most accounts of a trail.
pub const TRAIL_LIMIT: usize = 8;

/// R3.7: the bytes of the longest record, which are the fewest that an output may have.
pub const LONGEST_RECORD: usize = 31;

/// R4.1: the bytes of the longest request: map and kind, three numbers, two records and a name, these
/// with their length bytes.
pub const LONGEST_REQUEST: usize = 3 + 3 * 4 + 2 * (1 + LONGEST_RECORD) + 1 + LONGEST_COUNTED;

/// R4.1: the most bytes that a length byte can count.
pub const LONGEST_COUNTED: usize = u8::MAX as usize;

/// R7.1: how many tickets the ledger has places for.
pub const TICKET_LIMIT: usize = 512;

/// R5.10: the last number that a ticket is given, 65535.
pub const LAST_NUMBER: u16 = u16::MAX;

/// R1.2: the last second that a time can be, 4294967295.
pub const LAST_SECOND: u32 = u32::MAX;

/// R5.2: how many seconds before its start a ticket may be presented.
pub const CLOCK_SKEW: u32 = 300;

/// The words in front of the rows, and in front of the ledger's numbers.
pub const HEADER_SIZE: usize = 8;

/// The words of an account's row, and how many of them an edit sets.
pub const ROW_SIZE: usize = 8;
pub const ROW_WORDS: usize = 6;

/// The words of a ledger place.
pub const PLACE_SIZE: usize = 4;

/// How many tickets' numbers stand in a word, and the words of all of them.
pub const NUMBERS_IN_WORD: usize = 4;
pub const NUMBERS_SIZE: usize = TICKET_LIMIT / NUMBERS_IN_WORD;

/// The words of all accounts, 520.
pub const ACCOUNTS_SIZE: usize = HEADER_SIZE + ROW_SIZE * ACCOUNT_LIMIT;

/// The words of the ledger, 2184: the header, the numbers, and all places.
pub const LEDGER_SIZE: usize = HEADER_SIZE + NUMBERS_SIZE + PLACE_SIZE * TICKET_LIMIT;

/// R7.8: the number of this layout, and the bytes of a saved service: magic, layout, all words, and a
/// check sum of two halves.
pub const LAYOUT: u32 = 3;
pub const SAVED_SIZE: usize = 8 * (2 + ACCOUNTS_SIZE + LEDGER_SIZE + 2);

/// The version of the interface: 10000 for its major number.
pub const VERSION: u32 = 10_000;
