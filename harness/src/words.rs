//! The words that a caller lends, laid out as in docs/ARCHITECTURE.md. Any words stand for some
//! service; what a call stores are exactly the words given here.

use crate::accounts::{Account, Edit, Name, Table};
use crate::limits::{
    ACCOUNTS_SIZE, HEADER_SIZE, LEDGER_SIZE, NAME_LIMIT, NUMBERS_IN_WORD, NUMBERS_SIZE, PLACE_SIZE,
    ROW_SIZE, ROW_WORDS, TICKET_LIMIT,
};
use crate::record::{Origin, Ticket};
use crate::service::Service;

/// The words of the accounts: a header, and those of the rows.
pub type AccountWords = [u64; ACCOUNTS_SIZE];

/// The words of the ledger: a header with the stored count and the next number, the numbers, and those
/// of its places.
pub type LedgerWords = [u64; LEDGER_SIZE];

/// The words of the ledger's header that are not free.
pub const COUNT_AT: usize = 0;
pub const NEXT_AT: usize = 1;

/// The tags of a ticket's origin; every other one is that of a delegated ticket too.
const INITIAL: u8 = 0;
const DIRECT: u8 = 1;
const S4U2SELF: u8 = 2;
const DELEGATED: u8 = 3;

/// The stored mark of a barred ticket; every other one is that of a ticket without the mark.
const MARK: u8 = 1;

/// The service that the words stand for.
pub fn service(accounts: &AccountWords, ledger: &LedgerWords) -> Service {
    Service { table: table(accounts), ledger: tickets(ledger), next: ledger[NEXT_AT] }
}

/// The table that the words stand for.
pub fn table(accounts: &AccountWords) -> Table {
    Table { rows: std::array::from_fn(|number| account(&accounts[row_at(number)..][..ROW_SIZE])) }
}

/// The tickets that the words stand for.
pub fn tickets(ledger: &LedgerWords) -> Vec<Ticket> {
    let ticket_at = |place| ticket(number(ledger, place), &place_words(ledger, place));
    (0..count_held(ledger)).map(ticket_at).collect()
}

/// R7.1: how many tickets are held: as many as the stored count says, and no more than the limit.
pub fn count_held(ledger: &LedgerWords) -> usize {
    ledger[COUNT_AT].min(TICKET_LIMIT as u64) as usize
}

/// Where the words of an account start.
pub fn row_at(number: usize) -> usize {
    HEADER_SIZE + ROW_SIZE * number
}

/// The word that has the number of a place.
pub fn number_at(place: usize) -> usize {
    HEADER_SIZE + place / NUMBERS_IN_WORD
}

/// The lowest bit of that number in its word.
fn number_bit(place: usize) -> usize {
    16 * (place % NUMBERS_IN_WORD)
}

/// The number of the ticket at a place.
pub fn number(ledger: &LedgerWords, place: usize) -> u16 {
    (ledger[number_at(place)] >> number_bit(place)) as u16
}

/// Sets the number of a place, and no other.
pub fn put_number(ledger: &mut LedgerWords, place: usize, number: u16) {
    let word = &mut ledger[number_at(place)];
    *word = *word & !(0xFFFF << number_bit(place)) | u64::from(number) << number_bit(place);
}

/// Where the words of a place start.
pub fn place_at(place: usize) -> usize {
    HEADER_SIZE + NUMBERS_SIZE + PLACE_SIZE * place
}

/// The words of a place.
pub fn place_words(ledger: &LedgerWords, place: usize) -> [u64; PLACE_SIZE] {
    std::array::from_fn(|word| ledger[place_at(place) + word])
}

/// Sets the number and the words of a place, and no others.
fn put_place(ledger: &mut LedgerWords, place: usize, number: u16, words: &[u64; PLACE_SIZE]) {
    put_number(ledger, place, number);
    ledger[place_at(place)..][..PLACE_SIZE].copy_from_slice(words);
}

/// The account of a row's words; it is set where the stored length is one that a name has.
fn account(words: &[u64]) -> Option<Account> {
    let mut bytes = [0; NAME_LIMIT];
    for (chunk, word) in bytes.chunks_exact_mut(8).zip(words) {
        chunk.copy_from_slice(&word.to_le_bytes());
    }
    let length = usize::from(words[3] as u8);
    Some(Account {
        name: Name::new(bytes.get(..length)?)?,
        flags: (words[3] >> 8) as u8,
        send: words[4],
        receive: words[5],
        lifetime: (words[3] >> 32) as u32,
    })
}

/// The words of an account that an edit sets.
pub fn row_words(account: &Account) -> [u64; ROW_WORDS] {
    let mut bytes = [0; NAME_LIMIT];
    bytes[..account.name().len()].copy_from_slice(account.name());
    let name = |at: usize| (0..8).fold(0, |word, i| word | u64::from(bytes[at + i]) << (8 * i));
    let length = account.name().len() as u64;
    let details = length | u64::from(account.flags) << 8 | u64::from(account.lifetime) << 32;
    [name(0), name(8), name(16), details, account.send, account.receive]
}

/// The ticket of a number and a place's words.
fn ticket(number: u16, words: &[u64]) -> Ticket {
    let tgt = (words[2] >> 32) as u16;
    let evidence = (words[2] >> 48) as u16;
    Ticket {
        number,
        flags: words[0] as u32,
        client: (words[0] >> 32) as u8,
        service: (words[0] >> 40) as u8,
        hops: (words[0] >> 48) as u8,
        start: words[1] as u32,
        end: (words[1] >> 32) as u32,
        origin: match (words[0] >> 56) as u8 % 16 {
            INITIAL => Origin::Initial,
            DIRECT => Origin::Direct { tgt },
            S4U2SELF => Origin::S4U2self { tgt },
            _ => Origin::Delegated { tgt, evidence },
        },
        barred: (words[0] >> 60) as u8 == MARK,
        trail: words[3].to_le_bytes(),
    }
}

/// The words of a ticket that a grant stores, beside its number.
pub fn ticket_words(ticket: &Ticket) -> [u64; PLACE_SIZE] {
    let (tag, tgt, evidence) = match ticket.origin {
        Origin::Initial => (INITIAL, 0, 0),
        Origin::Direct { tgt } => (DIRECT, tgt, 0),
        Origin::S4U2self { tgt } => (S4U2SELF, tgt, 0),
        Origin::Delegated { tgt, evidence } => (DELEGATED, tgt, evidence),
    };
    let mark = if ticket.barred { MARK } else { 0 };
    [
        u64::from(ticket.flags)
            | u64::from(ticket.client) << 32
            | u64::from(ticket.service) << 40
            | u64::from(ticket.hops) << 48
            | u64::from(tag) << 56
            | u64::from(mark) << 60,
        u64::from(ticket.start) | u64::from(ticket.end) << 32,
        u64::from(tgt) << 32 | u64::from(evidence) << 48,
        u64::from_le_bytes(ticket.trail),
    ]
}

/// Stores an edit that is accepted: the words of its account change, but for those that are free, and
/// no others.
pub fn store_edit(accounts: &mut AccountWords, edit: &Edit) {
    let Edit { number, name, flags, send, receive, lifetime } = *edit;
    let name = Name::new(name).expect("an accepted edit has a good name");
    let account = Account { name, flags: flags as u8, send, receive, lifetime };
    store_account(accounts, number as usize, &account);
}

/// Sets the words of an account.
pub fn store_account(accounts: &mut AccountWords, number: usize, account: &Account) {
    accounts[row_at(number)..][..ROW_WORDS].copy_from_slice(&row_words(account));
}

/// Stores a granted ticket: the number and the words of the first place that is not held change, the
/// count becomes that place's index and one, the next number goes up by one, and nothing else changes.
pub fn store_ticket(ledger: &mut LedgerWords, ticket: &Ticket) {
    let place = count_held(ledger);
    put_place(ledger, place, ticket.number, &ticket_words(ticket));
    ledger[COUNT_AT] = place as u64 + 1;
    ledger[NEXT_AT] += 1;
}

/// R7.6: stores what a clearing leaves. The first places have the numbers and all the words of those
/// whose tickets stay, the others that were held have 0, the count becomes how many stay, and nothing
/// else changes.
pub fn store_clearing(ledger: &mut LedgerWords, clock: u32) {
    let held = count_held(ledger);
    let places = (0..held).map(|place| (number(ledger, place), place_words(ledger, place)));
    let stay: Vec<_> =
        places.filter(|(number, words)| ticket(*number, words).end > clock).collect();
    for place in 0..held {
        let (number, words) = stay.get(place).copied().unwrap_or_default();
        put_place(ledger, place, number, &words);
    }
    ledger[COUNT_AT] = stay.len() as u64;
}

#[cfg(test)]
mod tests {
    use super::*;
    use crate::record::read_ticket;
    use crate::samples::{TICKET_0, TICKET_2};

    #[test]
    fn a_row_is_laid_out_as_documented() {
        let name = Name::new(b"web-server").unwrap();
        let account =
            Account { name, flags: 12, send: 0x4, receive: u64::MAX, lifetime: 0x0102_0304 };
        let words = row_words(&account);
        let bytes: Vec<u8> = words.iter().flat_map(|word| word.to_le_bytes()).collect();
        assert_eq!(&bytes[..24], b"web-server\0\0\0\0\0\0\0\0\0\0\0\0\0\0");
        assert_eq!(&bytes[24..32], [10, 12, 0, 0, 4, 3, 2, 1]);
        assert_eq!(words[4..], [4, u64::MAX]);
        assert_eq!(super::account(&words), Some(account));
    }

    #[test]
    fn a_row_is_set_where_its_length_is_1_to_24() {
        for length in 0..=u8::MAX {
            let words = [!0, !0, !0, length.into(), !0, !0];
            assert_eq!(account(&words).is_some(), (1..=24).contains(&length), "{length}");
        }
    }

    #[test]
    fn a_ticket_is_laid_out_as_documented() {
        let words = ticket_words(&read_ticket(TICKET_2).unwrap());
        assert_eq!(words, [0x0301_0200_4000_0000, 0x0000_9088_0000_03fc, 0x0001_0000_0000_0000, 1]);
        for record in [TICKET_0, TICKET_2] {
            let ticket = read_ticket(record).unwrap();
            assert_eq!(super::ticket(ticket.number, &ticket_words(&ticket)), ticket);
        }
    }

    #[test]
    fn numbers_stand_four_in_a_word_the_lowest_first() {
        let mut ledger = [0; LEDGER_SIZE];
        for place in 0..8 {
            put_number(&mut ledger, place, 0xFFFF);
            put_number(&mut ledger, place, 0x1111 * (place as u16 + 1));
        }
        assert_eq!(ledger[8..11], [0x4444_3333_2222_1111, 0x8888_7777_6666_5555, 0]);
        assert_eq!((number(&ledger, 6), place_at(0), row_at(1)), (0x7777, 136, 16));
    }

    #[test]
    fn r7_1_no_more_than_512_tickets_are_held() {
        let mut ledger = [0; LEDGER_SIZE];
        for (count, read) in [(0, 0), (511, 511), (512, 512), (513, 512), (u64::MAX, 512)] {
            ledger[COUNT_AT] = count;
            assert_eq!(tickets(&ledger).len(), read);
        }
    }

    #[test]
    fn r5_10_a_grant_raises_the_next_number_and_its_ticket_may_have_any_place() {
        let mut ledger = [0; LEDGER_SIZE];
        ledger[NEXT_AT] = 700;
        let ticket = Ticket { number: 700, ..read_ticket(TICKET_0).unwrap() };
        store_ticket(&mut ledger, &ticket);
        assert_eq!((ledger[..3].to_vec(), number(&ledger, 0)), (vec![1, 701, 0], 700));
        assert_eq!(service(&[0; ACCOUNTS_SIZE], &ledger).next, 701);
        ledger[NEXT_AT] = u64::MAX;
        assert_eq!(service(&[0; ACCOUNTS_SIZE], &ledger).next, u64::MAX);
    }

    /// Words no two of which are alike, with this count and these ends in the first places; the ends of
    /// all others are later.
    fn odd_words(count: u64, ends: &[u32]) -> LedgerWords {
        let mut ledger = std::array::from_fn(|word| !(word as u64 * 0x0001_0003_0007_0001));
        ledger[COUNT_AT] = count;
        for (place, &end) in ends.iter().enumerate() {
            ledger[place_at(place) + 1] = u64::from(end) << 32 | place as u64;
        }
        ledger
    }

    #[test]
    fn r7_6_what_stays_closes_up_with_all_its_words() {
        let before = odd_words(6, &[50, 51, 50, 0, 52, 7]);
        let mut after = before;
        store_clearing(&mut after, 50);
        assert_eq!(after[..HEADER_SIZE], [&[2][..], &before[1..HEADER_SIZE]].concat());
        for (place, from) in [(0, 1), (1, 4), (6, 6), (7, 7), (511, 511)] {
            assert_eq!(number(&after, place), number(&before, from));
            assert_eq!(place_words(&after, place), place_words(&before, from));
        }
        for place in 2..6 {
            assert_eq!((number(&after, place), place_words(&after, place)), (0, [0; 4]));
        }
        assert_eq!(after[number_at(8)..place_at(0)], before[number_at(8)..place_at(0)]);
        assert_eq!(after[place_at(6)..], before[place_at(6)..]);
    }

    #[test]
    fn r7_6_a_count_above_512_becomes_how_many_stay() {
        for count in [512, 513, u64::MAX] {
            let before = odd_words(count, &[50, 51]);
            let mut after = before;
            store_clearing(&mut after, 49);
            assert_eq!((after[COUNT_AT], &after[1..]), (512, &before[1..]));
            store_clearing(&mut after, 50);
            assert_eq!((after[COUNT_AT], number(&after, 511)), (511, 0));
            assert_eq!(after[place_at(0)..place_at(511)], before[place_at(1)..]);
            store_clearing(&mut after, u32::MAX);
            assert!(after[HEADER_SIZE..].iter().all(|&word| word == 0));
            assert_eq!(after[..HEADER_SIZE], [&[0][..], &before[1..HEADER_SIZE]].concat());
        }
    }

    #[test]
    fn r7_6_the_words_stand_for_what_the_service_clears() {
        let accounts = [0; ACCOUNTS_SIZE];
        for clock in [0, 49, 50, 51, u32::MAX] {
            let mut ledger = odd_words(u64::MAX, &[50, 51, 50, 0, 52]);
            let mut cleared = service(&accounts, &ledger);
            cleared.clear(clock);
            store_clearing(&mut ledger, clock);
            assert_eq!(service(&accounts, &ledger), cleared);
        }
    }
}
