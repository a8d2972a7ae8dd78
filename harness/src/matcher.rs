//! A plain matcher of names, byte by byte over the accounts' words (docs/ARCHITECTURE.md has their
//! layout): what the compiled library finds is held against it, and what that costs.

use crate::calls::NO_ACCOUNT;
use crate::limits::{HEADER_SIZE, NAME_LIMIT, ROW_SIZE};
use crate::words::AccountWords;

/// R2.7: the number of the first row whose name matches, or that of no account. Of the plain forms that
/// docs/PERFORMANCE.md counts this is the one with the fewest instructions where bytes are compared.
pub fn find_name(accounts: &AccountWords, name: &[u8]) -> u32 {
    if !(1..=NAME_LIMIT).contains(&name.len()) {
        return NO_ACCOUNT;
    }
    let (rows, _) = accounts[HEADER_SIZE..].as_chunks();
    let found = rows.iter().zip(0..).find(|(row, _)| row_matches(row, name));
    found.map_or(NO_ACCOUNT, |(_, number)| number)
}

/// R2.6: whether a row's name matches one that is not too long: first its length, then byte after byte.
fn row_matches(row: &[u64; ROW_SIZE], name: &[u8]) -> bool {
    usize::from(row[3] as u8) == name.len()
        && name
            .iter()
            .zip(name_bytes(row).as_flattened())
            .all(|(one, other)| bytes_match(*one, *other))
}

/// The bytes of a row's name, and those behind it.
fn name_bytes(row: &[u64; ROW_SIZE]) -> [[u8; 8]; 3] {
    std::array::from_fn(|word| row[word].to_le_bytes())
}

/// R2.6: whether two bytes match: they are equal, or letters that differ in 0x20 alone.
fn bytes_match(one: u8, other: u8) -> bool {
    one == other || one ^ other == 0x20 && (one | 0x20).is_ascii_lowercase()
}

#[cfg(test)]
mod tests {
    use super::*;
    use crate::limits::ACCOUNTS_SIZE;
    use crate::words::{row_at, table};

    /// Words whose last row has this name, with other bytes behind it.
    fn last_row(name: &[u8]) -> AccountWords {
        let mut accounts = [0; ACCOUNTS_SIZE];
        let row = &mut accounts[row_at(63)..];
        let mut bytes = [0xEE; NAME_LIMIT];
        bytes[..name.len()].copy_from_slice(name);
        for (word, chunk) in row.iter_mut().zip(bytes.as_chunks().0) {
            *word = u64::from_le_bytes(*chunk);
        }
        row[3] = name.len() as u64;
        accounts
    }

    #[test]
    fn r2_6_what_is_found_is_what_the_table_finds() {
        for (one, other) in (0..=255).flat_map(|one| (0..=255).map(move |other| (one, other))) {
            let accounts = last_row(&[b"recorder", &[one][..], b"ward"].concat());
            let name = [b"RECORDER", &[other][..], b"ward"].concat();
            let found = find_name(&accounts, &name);
            assert_eq!(found, table(&accounts).find_name(&name).map_or(64, u32::from));
        }
    }

    #[test]
    fn r2_6_lengths_are_equal() {
        for stored in 1..=NAME_LIMIT {
            let accounts = last_row(&[b'n'; NAME_LIMIT][..stored]);
            for length in 0..=300 {
                let found = find_name(&accounts, &vec![b'N'; length]);
                assert_eq!(found, if length == stored { 63 } else { 64 });
            }
        }
        assert_eq!(find_name(&[u64::MAX; ACCOUNTS_SIZE], &[0xFF; 255]), NO_ACCOUNT);
    }
}
