//! Savings and loadings of a history (R7.8, R7.9): what a loading is given, and what is counted of both.

use super::replay::{same, same_bytes, Outcome, Pair, MARGIN};
use super::tally::{holding, Tally, NEVER};
use crate::book::Book;
use crate::calls;
use crate::limits::{ACCOUNTS_SIZE, ACCOUNT_LIMIT, HEADER_SIZE, ROW_WORDS, SAVED_SIZE};
use crate::past::Past;
use crate::random::Random;
use crate::saving::{put_check_sum, FIRST_HALF_AT, LAYOUT_AT, MAGIC, SECOND_HALF_AT, WORDS_AT};
use crate::service::Service;
use crate::words::{row_at, NEXT_AT};
use std::ops::Range;
use tickets::raw;

/// What is counted of a saving, by the output.
pub const SAVED: &[&str] = &["exactly as long", "longer", "52 none", "52 one short", "52 shorter"];

/// What is counted of a loading that succeeds: the words that it met, and what the saved ones are.
pub const LOADED: &[&str] = &["the same words", "over others", "free words", "other words"];

/// What is counted of a loading that is refused, by the damage.
pub const NOT_LOADED: &[&str] = &[
    "byte of the magic",
    "byte of the layout",
    "byte of the accounts",
    "byte of the ledger",
    "byte of the first half",
    "byte of the second half",
    "two bytes",
    "two bytes, opposite",
    "byte and first half",
    "byte and second half",
    "byte missing",
    "byte left over",
    "other layout",
    "other magic",
    "empty",
    "random",
];

/// How the bytes that are loaded differ from those that were saved.
#[derive(Clone, Debug, PartialEq, Eq)]
pub enum Damage {
    /// Not at all.
    None,
    /// So much is added to the byte at a place.
    Byte { at: usize, add: u8 },
    /// The same at two places.
    Two { at: [usize; 2], add: [u8; 2] },
    /// The byte at a place is missing.
    Missing { at: usize },
    /// A byte stands before the one at a place, or behind all.
    LeftOver { at: usize, byte: u8 },
    /// Another layout's number, with the check sum that it has then.
    Layout(u64),
    /// Another magic, with the check sum that it has then.
    Magic(u64),
    /// No bytes.
    Empty,
    /// Random bytes, so many.
    Random { seed: u64, length: usize },
    /// No damage: the word at a place, which no call reads, is another, with the check sum that it has
    /// then.
    Free { word: usize, to: u64 },
}

impl Damage {
    /// What is loaded in place of the saved bytes.
    pub fn done_to(&self, saved: &[u8]) -> Vec<u8> {
        let mut bytes = saved.to_vec();
        match *self {
            Damage::None => {}
            Damage::Byte { at, add } => bytes[at] = bytes[at].wrapping_add(add),
            Damage::Two { at, add } => {
                for (at, add) in at.into_iter().zip(add) {
                    bytes[at] = bytes[at].wrapping_add(add);
                }
            }
            Damage::Missing { at } => {
                bytes.remove(at);
            }
            Damage::LeftOver { at, byte } => bytes.insert(at, byte),
            Damage::Layout(layout) => put_number(&mut bytes, LAYOUT_AT, layout),
            Damage::Magic(magic) => put_number(&mut bytes, 0, magic),
            Damage::Empty => bytes.clear(),
            Damage::Random { seed, length } => bytes = Random(seed).bytes(length),
            Damage::Free { word, to } => put_number(&mut bytes, WORDS_AT + 8 * word, to),
        }
        bytes
    }

    /// What is counted where such bytes are refused.
    fn name(&self) -> &'static str {
        match *self {
            Damage::Byte { at, .. } => match part(at) {
                Part::Magic => "byte of the magic",
                Part::Layout => "byte of the layout",
                Part::Accounts => "byte of the accounts",
                Part::Ledger => "byte of the ledger",
                Part::FirstHalf => "byte of the first half",
                Part::SecondHalf => "byte of the second half",
            },
            Damage::Two { at, add } => match (part(at[0]), part(at[1])) {
                (Part::FirstHalf, _) | (_, Part::FirstHalf) => "byte and first half",
                (Part::SecondHalf, _) | (_, Part::SecondHalf) => "byte and second half",
                _ if add[0].wrapping_add(add[1]) == 0 => "two bytes, opposite",
                _ => "two bytes",
            },
            Damage::Missing { .. } => "byte missing",
            Damage::LeftOver { .. } => "byte left over",
            Damage::Layout(_) => "other layout",
            Damage::Magic(_) => "other magic",
            Damage::Empty => "empty",
            Damage::Random { .. } => "random",
            Damage::None | Damage::Free { .. } => NEVER,
        }
    }
}

/// R7.8: the parts of a saved service.
enum Part {
    Magic,
    Layout,
    Accounts,
    Ledger,
    FirstHalf,
    SecondHalf,
}

/// Where the words of the ledger begin.
const LEDGER_AT: usize = WORDS_AT + 8 * ACCOUNTS_SIZE;

/// The part that a byte is of.
fn part(at: usize) -> Part {
    match at {
        ..LAYOUT_AT => Part::Magic,
        LAYOUT_AT..WORDS_AT => Part::Layout,
        WORDS_AT..LEDGER_AT => Part::Accounts,
        LEDGER_AT..FIRST_HALF_AT => Part::Ledger,
        FIRST_HALF_AT..SECOND_HALF_AT => Part::FirstHalf,
        _ => Part::SecondHalf,
    }
}

/// Sets a number of saved bytes, and makes their check sum the right one.
fn put_number(bytes: &mut [u8], at: usize, number: u64) {
    bytes[at..at + 8].copy_from_slice(&number.to_be_bytes());
    put_check_sum(bytes.try_into().expect("as many bytes as are saved"));
}

/// A place of some part, each part as often.
fn place(random: &mut Random) -> usize {
    let parts: [Range<usize>; 6] = [
        0..LAYOUT_AT,
        LAYOUT_AT..WORDS_AT,
        WORDS_AT..LEDGER_AT,
        LEDGER_AT..FIRST_HALF_AT,
        FIRST_HALF_AT..SECOND_HALF_AT,
        SECOND_HALF_AT..SAVED_SIZE,
    ];
    let part = &parts[random.below(parts.len())];
    part.start + random.below(part.len())
}

/// A byte that is not 0.
fn some_byte(random: &mut Random) -> u8 {
    let some = 1 + random.below(255) as u8;
    random.pick(&[1, 0x80, 0xFF, some])
}

/// A place of a word that no call reads: of a header, or the last two of a row.
fn free_word(random: &mut Random) -> usize {
    let row = row_at(random.below(ACCOUNT_LIMIT));
    let of_accounts = random.below(HEADER_SIZE);
    let of_ledger = ACCOUNTS_SIZE + NEXT_AT + 1 + random.below(HEADER_SIZE - NEXT_AT - 1);
    random.pick(&[of_accounts, of_ledger, row + ROW_WORDS, row + ROW_WORDS + 1])
}

/// Some damage; none, or none that counts, in two of five.
pub fn some_damage(random: &mut Random) -> Damage {
    let (one, other) = (place(random), place(random));
    let byte = some_byte(random);
    match random.below(20) {
        0..=6 => Damage::None,
        7 => Damage::Free { word: free_word(random), to: random.word() },
        8..=12 => Damage::Byte { at: one, add: byte },
        13 | 14 if one != other => two_bytes(random, [one, other]),
        13..=15 => Damage::Missing { at: random.pick(&[one, SAVED_SIZE - 1]) },
        16 => Damage::LeftOver { at: random.pick(&[other, SAVED_SIZE]), byte: byte & 0x7F },
        17 => Damage::Layout(random.pick(&[0, 1, 2, 4, 1 << 8 | 3, 1 << 32 | 3, 3 << 56])),
        18 => {
            let magic = u64::from_be_bytes(MAGIC);
            Damage::Magic(random.pick(&[0, magic ^ 1 << 63, magic ^ 1, magic.swap_bytes()]))
        }
        _ if random.once_in(2) => Damage::Empty,
        _ => {
            let length = random.pick(&[1, 8, SAVED_SIZE - 1, SAVED_SIZE, SAVED_SIZE + 1]);
            Damage::Random { seed: random.word(), length }
        }
    }
}

/// Two bytes altered at these places; half the time one goes up by as much as the other goes down.
fn two_bytes(random: &mut Random, at: [usize; 2]) -> Damage {
    let (one, other) = (some_byte(random), some_byte(random));
    let add = if random.once_in(2) { [one, one.wrapping_neg()] } else { [one, other] };
    Damage::Two { at, add }
}

/// What was saved last: its bytes, and all that the replay has to go on from there.
pub struct Saved {
    pub bytes: Vec<u8>,
    pub second: Service,
    pub book: Option<Book>,
    pub past: Past,
    pub freed: usize,
}

impl Pair {
    /// Saves both sides, each to an output among the same random bytes.
    pub(super) fn save(&mut self, length: usize, tally: &mut Tally) -> Result<Outcome, String> {
        let mut by_library = self.random.bytes(length + 2 * MARGIN);
        let mut by_second = by_library.clone();
        let output = MARGIN..MARGIN + length;
        let (library, words) = (&self.library, &self.words);
        let answer = raw::save(&library.accounts, &library.ledger, &mut by_library[output.clone()]);
        let second = calls::save(&words.accounts, &words.ledger, &mut by_second[output]);
        same("the answer", answer.into(), second)?;
        same_bytes("the saved bytes", &by_library, &by_second)?;
        tally.saved(length, answer.error);
        if answer.error == 0 {
            let bytes = by_library[MARGIN..][..answer.value as usize].to_vec();
            let (second, book) = (self.second.clone(), self.book.clone());
            let (past, freed) = (self.past.clone(), self.freed);
            self.saved = Saved { bytes, second, book, past, freed };
        }
        Ok(Outcome { error: answer.error, granted: None })
    }

    /// Loads what was saved last, with some damage, on both sides.
    pub(super) fn load(&mut self, damage: &Damage, tally: &mut Tally) -> Result<Outcome, String> {
        let bytes = damage.done_to(&self.saved.bytes);
        let before = self.words.clone();
        let (library, words) = (&mut self.library, &mut self.words);
        let error = raw::load(&mut library.accounts, &mut library.ledger, &bytes);
        let second = calls::load(&mut words.accounts, &mut words.ledger, &bytes);
        same("the answer", error, second)?;
        tally.calls += 1;
        if error == 0 {
            self.go_back();
            tally.add_all("loaded", self.loaded(&before, damage));
        } else {
            tally.add("not loaded 60", if error == 60 { damage.name() } else { NEVER });
        }
        Ok(Outcome { error, granted: None })
    }

    /// Goes back to what was saved last.
    fn go_back(&mut self) {
        let Saved { second, book, past, freed, .. } = &self.saved;
        (self.second, self.book) = (second.clone(), book.clone());
        (self.past, self.freed) = (past.clone(), *freed);
        self.is_loaded = true;
    }

    /// What is counted of a loading that met these words.
    fn loaded(
        &self,
        before: &tickets::Service,
        damage: &Damage,
    ) -> impl Iterator<Item = &'static str> {
        let is_same = *before == *self.words;
        holding([
            (is_same, "the same words"),
            (!is_same, "over others"),
            (matches!(damage, Damage::Free { .. }), "free words"),
            (self.book.is_none(), "other words"),
        ])
    }
}

impl Tally {
    /// A saving to an output of this length was answered.
    fn saved(&mut self, length: usize, error: u32) {
        self.calls += 1;
        let name = match (error, length) {
            (0, SAVED_SIZE) => "exactly as long",
            (0, _) => "longer",
            (52, 0) => "52 none",
            (52, _) if length == SAVED_SIZE - 1 => "52 one short",
            (52, _) => "52 shorter",
            _ => NEVER,
        };
        self.add("saved", name);
    }
}

/// The lengths of outputs of a saving, each as often as it is tried.
pub fn some_output(random: &mut Random) -> usize {
    let shorter = random.below(SAVED_SIZE);
    let lengths = [0, SAVED_SIZE - 1, shorter, SAVED_SIZE, SAVED_SIZE, SAVED_SIZE + 1];
    random.pick(&[&lengths[..], &[SAVED_SIZE; 4], &[SAVED_SIZE + 64]].concat())
}
