//! Accounts, their names, their table and its edits, and words of names: R2.1 to R2.13.

use crate::limits::{ACCOUNT_LIMIT, NAME_LIMIT};
use crate::record::{Error, Principal};

/// R2.2: the flags of an account.
pub const DISABLED: u8 = 1;
pub const BARRED: u8 = 2;
pub const TRUSTED: u8 = 4;
pub const SERVICE: u8 = 8;

/// R2.9: all flags together, the most that an edit may give.
pub const ALL_FLAGS: u8 = DISABLED | BARRED | TRUSTED | SERVICE;

/// An account's name; the bytes after it are 0, and play no part.
#[derive(Clone, Copy, Debug, PartialEq, Eq)]
pub struct Name {
    bytes: [u8; NAME_LIMIT],
    length: u8,
}

impl Name {
    /// The name of these bytes, whatever they are; there is none of no bytes, or of too many.
    pub fn new(name: &[u8]) -> Option<Name> {
        if name.is_empty() {
            return None;
        }
        let mut bytes = [0; NAME_LIMIT];
        bytes.get_mut(..name.len())?.copy_from_slice(name);
        Some(Name { bytes, length: name.len() as u8 })
    }

    /// The bytes of the name.
    pub fn as_bytes(&self) -> &[u8] {
        &self.bytes[..self.length.into()]
    }

    /// R2.13: the bytes of the name, and zeros behind it.
    pub fn padded(&self) -> [u8; NAME_LIMIT] {
        self.bytes
    }
}

/// R2.1: what an account has. The sets have a bit for each account (R2.3); the lifetime is in
/// seconds.
#[derive(Clone, Copy, Debug, PartialEq, Eq)]
pub struct Account {
    pub name: Name,
    pub flags: u8,
    pub send: u64,
    pub receive: u64,
    pub lifetime: u32,
}

impl Account {
    /// The bytes of the account's name.
    pub fn name(&self) -> &[u8] {
        self.name.as_bytes()
    }

    /// R2.6: whether the name matches the account's. Other bytes than ASCII letters match themselves
    /// alone.
    pub fn matches(&self, name: &[u8]) -> bool {
        self.name().eq_ignore_ascii_case(name)
    }
}

/// R2.8: an edit, with all that the account has after it.
#[derive(Clone, Copy, Debug, PartialEq, Eq)]
pub struct Edit<'a> {
    pub number: u32,
    pub name: &'a [u8],
    pub flags: u32,
    pub send: u64,
    pub receive: u64,
    pub lifetime: u32,
}

#[cfg(feature = "library")]
impl<'a> From<Edit<'a>> for tickets::Edit<'a> {
    fn from(edit: Edit<'a>) -> Self {
        let Edit { number, name, flags, send, receive, lifetime } = edit;
        Self { number, name, flags, send, receive, lifetime }
    }
}

impl Edit<'_> {
    /// The account's number and row, if all three of number, name and flags are in range: R2.9's 60.
    fn row(&self) -> Result<(usize, Account), Error> {
        let number = usize::try_from(self.number).map_err(|_| Error::Generic)?;
        let flags = u8::try_from(self.flags).map_err(|_| Error::Generic)?;
        let name = Name::new(self.name).ok_or(Error::Generic)?;
        if number >= ACCOUNT_LIMIT || flags > ALL_FLAGS || !self.name.iter().all(is_good_byte) {
            return Err(Error::Generic);
        }
        let Edit { send, receive, lifetime, .. } = *self;
        Ok((number, Account { name, flags, send, receive, lifetime }))
    }
}

/// R2.5: whether a good name may have the byte.
fn is_good_byte(byte: &u8) -> bool {
    (0x21..=0x7E).contains(byte) && *byte != 0x40
}

/// R2.12: whether two words match: their bytes do at each of the eight places.
pub fn words_match(a: u64, b: u64) -> bool {
    let mut pairs = a.to_le_bytes().into_iter().zip(b.to_le_bytes());
    pairs.all(|(one, other)| one.eq_ignore_ascii_case(&other))
}

/// R2.3: whether a set has an account; one that is no account's number is in no set.
fn in_set(set: u64, principal: Principal) -> bool {
    set.checked_shr(principal.into()).is_some_and(|rest| rest & 1 == 1)
}

/// The accounts by number; `None` is one never set (R2.4).
#[derive(Clone, Debug, PartialEq, Eq)]
pub struct Table {
    pub rows: [Option<Account>; ACCOUNT_LIMIT],
}

impl Default for Table {
    fn default() -> Table {
        Table::empty()
    }
}

impl Table {
    /// The table of a fresh service, and of a book at first: no account is set.
    pub fn empty() -> Table {
        Table { rows: [None; ACCOUNT_LIMIT] }
    }

    /// R2.8, R2.9: an edit, after the checks 60, 12 and 8 in this order. A refused one changes nothing.
    pub fn edit(&mut self, edit: &Edit) -> Result<(), Error> {
        let (number, account) = edit.row()?;
        if self.rows[number].as_ref().is_some_and(|row| row.name() != edit.name) {
            return Err(Error::Policy);
        }
        if self.name_taken(number, edit.name) {
            return Err(Error::PrincipalNotUnique);
        }
        self.rows[number] = Some(account);
        Ok(())
    }

    /// The numbers of the set accounts with a matching name, the lowest first.
    fn matching<'a>(&'a self, name: &'a [u8]) -> impl Iterator<Item = usize> + 'a {
        let rows = self.rows.iter().enumerate();
        rows.filter(move |(_, row)| row.as_ref().is_some_and(|account| account.matches(name)))
            .map(|(number, _)| number)
    }

    /// R2.7: the account that a name stands for, the lowest of those that match; none if unknown.
    pub fn find_name(&self, name: &[u8]) -> Option<Principal> {
        self.matching(name).next().map(|number| number as Principal)
    }

    /// R2.9: whether an account other than this one has a matching name.
    fn name_taken(&self, number: usize, name: &[u8]) -> bool {
        self.matching(name).any(|other| other != number)
    }

    /// The account of a number, if it is set; none has a number beyond the limit (R2.4).
    pub fn account(&self, principal: Principal) -> Option<&Account> {
        self.rows.get(usize::from(principal))?.as_ref()
    }

    /// R2.13: the account of a number that a caller gives, if it is set; 60 where no account has it.
    pub fn read(&self, number: u32) -> Result<Option<&Account>, Error> {
        let row = self.rows.get(number as usize).ok_or(Error::Generic)?;
        Ok(row.as_ref())
    }

    /// Whether an account is set and has a flag.
    fn has(&self, principal: Principal, flag: u8) -> bool {
        self.account(principal).is_some_and(|account| account.flags & flag != 0)
    }

    /// R2.2, R2.4: whether an account has flag 1, or is not set.
    pub fn is_disabled(&self, principal: Principal) -> bool {
        self.account(principal).is_none_or(|account| account.flags & DISABLED != 0)
    }

    /// The opposite.
    pub fn is_enabled(&self, principal: Principal) -> bool {
        !self.is_disabled(principal)
    }

    /// R2.2: flag 2, DelegationNotAllowed.
    pub fn is_barred(&self, principal: Principal) -> bool {
        self.has(principal, BARRED)
    }

    /// R2.2: flag 4, TrustedToAuthenticationForDelegation.
    pub fn is_trusted(&self, principal: Principal) -> bool {
        self.has(principal, TRUSTED)
    }

    /// R2.2: flag 8.
    pub fn is_service(&self, principal: Principal) -> bool {
        self.has(principal, SERVICE)
    }

    /// R2.3: whether an account's send set, ServicesAllowedToSendForwardedTicketsTo, is empty.
    pub fn sends_to_none(&self, principal: Principal) -> bool {
        self.account(principal).is_none_or(|account| account.send == 0)
    }

    /// R2.3: whether an account's send set has another.
    pub fn sends_to(&self, principal: Principal, other: Principal) -> bool {
        self.account(principal).is_some_and(|account| in_set(account.send, other))
    }

    /// R2.3: whether an account's receive set, ServicesAllowedToReceiveForwardedTicketsFrom, has
    /// another.
    pub fn receives_from(&self, principal: Principal, other: Principal) -> bool {
        self.account(principal).is_some_and(|account| in_set(account.receive, other))
    }

    /// An account's lifetime in seconds; 0 for one never set, which no decision reaches.
    pub fn lifetime(&self, principal: Principal) -> u32 {
        self.account(principal).map_or(0, |account| account.lifetime)
    }
}

#[cfg(test)]
mod tests {
    use super::*;
    use crate::fixtures::edit;

    /// R11.1: the accounts of the examples.
    fn morning() -> Table {
        let mut table = Table::empty();
        for edit in [edit(0, "tech", 0, 0, 0), edit(1, "web", 12, 4, 0), edit(2, "store", 8, 0, 0)]
        {
            assert_eq!(table.edit(&edit), Ok(()));
        }
        table
    }

    /// The answer to an edit that is refused and changes nothing.
    fn refused(table: &mut Table, edit: &Edit) -> u8 {
        let before = table.clone();
        let error = table.edit(edit).unwrap_err();
        assert_eq!(*table, before);
        error.number()
    }

    /// A row that edits need not give.
    fn row(name: &[u8], flags: u8) -> Option<Account> {
        let name = Name::new(name).unwrap();
        Some(Account { name, flags, send: 0, receive: 0, lifetime: 1 })
    }

    #[test]
    fn r2_9_bad_number_name_and_flags_are_60() {
        let mut table = morning();
        let long = "x".repeat(25);
        let bad = ["", &long, "a b", "a@b", "a\x7F", "a\0", "\u{e9}"];
        for name in bad {
            assert_eq!(refused(&mut table, &edit(3, name, 0, 0, 0)), 60, "{name}");
        }
        for number in [64, 255, 256, 259, 65539, u32::MAX] {
            assert_eq!(refused(&mut table, &edit(number, "new", 0, 0, 0)), 60);
        }
        for flags in [16, 255, 256, 0x100_0008, u32::MAX] {
            assert_eq!(refused(&mut table, &edit(3, "new", flags, 0, 0)), 60);
        }
    }

    #[test]
    fn r2_5_the_bounds_of_a_good_edit() {
        let mut table = morning();
        assert_eq!(table.edit(&edit(63, &"x".repeat(24), 15, u64::MAX, 1 << 63)), Ok(()));
        assert_eq!(table.edit(&edit(3, "!", 0, 0, 0)), Ok(()));
        assert_eq!(table.edit(&edit(4, "~", 0, 0, 0)), Ok(()));
        let account = table.account(63).unwrap();
        assert_eq!((account.flags, account.send, account.receive), (15, u64::MAX, 1 << 63));
    }

    #[test]
    fn r2_8_the_first_accepted_edit_fixes_the_name() {
        let mut table = morning();
        assert_eq!(refused(&mut table, &edit(3, "WEB", 0, 0, 0)), 8);
        assert_eq!(table.edit(&edit(3, "other", 0, 0, 0)), Ok(()));
        assert_eq!(refused(&mut table, &edit(1, "www", 12, 0, 0)), 12);
        assert_eq!(refused(&mut table, &edit(1, "WEB", 12, 0, 0)), 12);
        assert_eq!(refused(&mut table, &edit(1, "tech", 12, 0, 0)), 12);
        assert_eq!(refused(&mut table, &edit(1, "tech", 16, 0, 0)), 60);
        assert_eq!(table.edit(&edit(1, "web", 8, 1, 2)), Ok(()));
        assert_eq!(table.account(1).map(|row| (row.flags, row.send, row.receive)), Some((8, 1, 2)));
    }

    #[test]
    fn r2_9_a_disabled_account_keeps_its_name_and_may_be_edited_again() {
        let mut table = morning();
        assert_eq!(table.edit(&edit(0, "tech", 1, 0, 0)), Ok(()));
        assert_eq!(refused(&mut table, &edit(3, "TECH", 0, 0, 0)), 8);
        assert_eq!(table.edit(&edit(0, "tech", 0, 0, 0)), Ok(()));
    }

    #[test]
    fn r2_6_letter_case_alone_is_overlooked() {
        let mut table = morning();
        assert_eq!(table.edit(&edit(5, "[^Z", 0, 0, 0)), Ok(()));
        let long = [b'x'; 25];
        for (name, found) in [
            (&b"wEb"[..], Some(1)),
            (b"[^z", Some(5)),
            (b"{^z", None),
            (b"[~z", None),
            (b"web\0", None),
            (b"we", None),
            (b"", None),
            (&long, None),
        ] {
            assert_eq!(table.find_name(name), found);
        }
        table.rows[6] = row(b"\xC3\x89`", 0);
        assert_eq!(table.find_name(b"\xC3\x89`"), Some(6));
        assert_eq!(table.find_name(b"\xE3\x89`"), None);
        assert_eq!(table.find_name(b"\xC3\x89@"), None);
    }

    #[test]
    fn r11_8_words_match_by_their_letters_at_each_of_the_eight_places() {
        assert!(words_match(0x2000_0000_0062_6557, 0x2000_0000_0042_6577));
        for (one, other, matching) in [
            (0x41, 0x61, true),
            (0x5A, 0x7A, true),
            (0x40, 0x60, false),
            (0x5B, 0x7B, false),
            (0xC1, 0xE1, false),
            (0x00, 0x20, false),
        ] {
            for place in 0..8 {
                let [a, b] = [one, other].map(|byte: u64| byte << (8 * place));
                assert_eq!(words_match(a, b), matching, "{a:#x} and {b:#x}");
                assert_eq!(words_match(b, a), matching, "{b:#x} and {a:#x}");
            }
        }
    }

    #[test]
    fn r2_12_all_pairs_of_bytes_at_one_place() {
        for (one, other) in (0..=255).flat_map(|one| (0..=255).map(move |other| (one, other))) {
            let [a, b] = [one, other].map(|byte: u8| 0x6120_FF41_0000_7F7A | u64::from(byte) << 24);
            let letters = one ^ other == 0x20 && (0x41..=0x5A).contains(&one.min(other));
            assert_eq!(words_match(a, b), one == other || letters, "{one:#x} and {other:#x}");
        }
    }

    #[test]
    fn r2_4_an_account_never_set_is_disabled_and_has_nothing() {
        assert_eq!(Name::new(b""), None);
        assert_eq!(Name::new(&[b'x'; 25]), None);
        let table = morning();
        for number in [3, 63, 64, 255] {
            assert!(table.is_disabled(number) && !table.is_enabled(number));
            assert!(!table.is_barred(number) && !table.is_trusted(number));
            assert!(!table.is_service(number) && table.sends_to_none(number));
            assert!((0..=255).all(|other| !table.sends_to(number, other)));
            assert!((0..=255).all(|other| !table.receives_from(number, other)));
        }
    }

    #[test]
    fn r2_2_flags_without_a_meaning_change_nothing() {
        let mut table = morning();
        table.rows[7] = row(b"odd", 0xF0);
        assert!(table.is_enabled(7) && !table.is_barred(7));
        assert!(!table.is_trusted(7) && !table.is_service(7));
        table.rows[7] = row(b"odd", 0xFF);
        assert!(table.is_disabled(7) && table.is_barred(7));
        assert!(table.is_trusted(7) && table.is_service(7));
    }

    #[test]
    fn r2_3_sets() {
        let mut table = morning();
        assert_eq!(table.edit(&edit(1, "web", 8, 1 << 63, u64::MAX)), Ok(()));
        assert!(!table.sends_to_none(1));
        let sent: Vec<u8> = (0..=255).filter(|&other| table.sends_to(1, other)).collect();
        assert_eq!(sent, [63]);
        assert_eq!((0..=255).filter(|&other| table.receives_from(1, other)).count(), 64);
    }

    #[test]
    fn r2_7_the_lowest_match_is_found_and_an_edit_of_any_match_is_8() {
        let mut table = morning();
        table.rows[9] = row(b"WEB", 8);
        assert_eq!(table.find_name(b"web"), Some(1));
        assert_eq!(refused(&mut table, &edit(1, "web", 0, 0, 0)), 8);
        assert_eq!(refused(&mut table, &edit(9, "WEB", 0, 0, 0)), 8);
        assert_eq!(refused(&mut table, &edit(9, "web", 0, 0, 0)), 12);
    }
}
