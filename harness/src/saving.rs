//! Saved services: R7.8 to R7.10.

use crate::limits::{ACCOUNTS_SIZE, LAYOUT, SAVED_SIZE};
use crate::record::Error;
use crate::words::{AccountWords, LedgerWords};

/// R7.8: the magic, 0x89 and `TICKETS`.
pub const MAGIC: [u8; 8] = *b"\x89TICKETS";

/// Where the layout's number, the words and the two halves of the check sum stand.
pub const LAYOUT_AT: usize = 8;
pub const WORDS_AT: usize = 16;
pub const FIRST_HALF_AT: usize = SAVED_SIZE - 16;
pub const SECOND_HALF_AT: usize = SAVED_SIZE - 8;

/// R7.8: both halves of the check sum of these bytes: their sum, and that of each times its place.
pub fn check_sum(bytes: &[u8]) -> [u64; 2] {
    let plain = bytes.iter().map(|&byte| u64::from(byte)).sum();
    [plain, (1..).zip(bytes).map(|(place, &byte)| place * u64::from(byte)).sum()]
}

/// Makes the check sum that of the bytes before it.
pub fn put_check_sum(saved: &mut [u8; SAVED_SIZE]) {
    let [first, second] = check_sum(&saved[..FIRST_HALF_AT]);
    saved[FIRST_HALF_AT..SECOND_HALF_AT].copy_from_slice(&first.to_be_bytes());
    saved[SECOND_HALF_AT..].copy_from_slice(&second.to_be_bytes());
}

/// R7.8: saves the words to the start of the output, and gives how many bytes those are.
pub fn save(
    accounts: &AccountWords,
    ledger: &LedgerWords,
    output: &mut [u8],
) -> Result<usize, Error> {
    let saved: &mut [u8; SAVED_SIZE] = output.first_chunk_mut().ok_or(Error::ResponseTooBig)?;
    saved[..LAYOUT_AT].copy_from_slice(&MAGIC);
    saved[LAYOUT_AT..WORDS_AT].copy_from_slice(&u64::from(LAYOUT).to_be_bytes());
    let places = saved[WORDS_AT..FIRST_HALF_AT].chunks_exact_mut(8);
    for (place, word) in places.zip(accounts.iter().chain(ledger)) {
        place.copy_from_slice(&word.to_be_bytes());
    }
    put_check_sum(saved);
    Ok(SAVED_SIZE)
}

/// R7.9: makes the words those that were saved as these bytes; 60 where none were, and then they stay.
pub fn load(
    accounts: &mut AccountWords,
    ledger: &mut LedgerWords,
    saved: &[u8],
) -> Result<(), Error> {
    if saved.len() != SAVED_SIZE {
        return Err(Error::Generic);
    }
    let number = |at: usize| u64::from_be_bytes(*saved[at..].first_chunk().expect("eight bytes"));
    let sums = [number(FIRST_HALF_AT), number(SECOND_HALF_AT)];
    if saved[..LAYOUT_AT] != MAGIC
        || number(LAYOUT_AT) != u64::from(LAYOUT)
        || sums != check_sum(&saved[..FIRST_HALF_AT])
    {
        return Err(Error::Generic);
    }
    *accounts = std::array::from_fn(|word| number(WORDS_AT + 8 * word));
    *ledger = std::array::from_fn(|word| number(WORDS_AT + 8 * (ACCOUNTS_SIZE + word)));
    Ok(())
}

#[cfg(test)]
mod tests {
    use super::*;
    use crate::limits::LEDGER_SIZE;

    /// The bytes of the saved words.
    fn saved(accounts: &AccountWords, ledger: &LedgerWords) -> Vec<u8> {
        let mut output = vec![0xEE; SAVED_SIZE];
        assert_eq!(save(accounts, ledger, &mut output), Ok(SAVED_SIZE));
        output
    }

    /// R11.11: a fresh service, saved.
    fn fresh() -> Vec<u8> {
        let mut bytes = b"\x89\x54\x49\x43\x4b\x45\x54\x53\0\0\0\0\0\0\0\x03".to_vec();
        bytes.resize(21_648, 0);
        bytes.extend(b"\0\0\0\0\0\0\x02\xa3\0\0\0\0\0\0\x0b\x41");
        bytes
    }

    /// That the bytes are 60, and leave memory as it was.
    fn assert_refused(bytes: &[u8]) {
        let (mut accounts, mut ledger) = ([7; ACCOUNTS_SIZE], [9; LEDGER_SIZE]);
        assert_eq!(load(&mut accounts, &mut ledger, bytes), Err(Error::Generic));
        assert!(accounts == [7; ACCOUNTS_SIZE] && ledger == [9; LEDGER_SIZE]);
    }

    #[test]
    fn r11_11_a_fresh_service_is_saved_and_loaded() {
        let (none, empty) = ([0; ACCOUNTS_SIZE], [0; LEDGER_SIZE]);
        assert!(saved(&none, &empty) == fresh());
        let (mut accounts, mut ledger) = ([7; ACCOUNTS_SIZE], [9; LEDGER_SIZE]);
        assert_eq!(load(&mut accounts, &mut ledger, &fresh()), Ok(()));
        assert!(accounts == none && ledger == empty);
    }

    #[test]
    fn r11_11_bytes_that_were_altered_are_60() {
        let with = |changes: &[(usize, u8)]| {
            let mut bytes = fresh();
            changes.iter().for_each(|&(at, byte)| bytes[at] = byte);
            bytes
        };
        assert_refused(&with(&[(16, 0x01)]));
        assert_refused(&with(&[(21_663, 0x42)]));
        assert_refused(&with(&[(16, 0x01), (21_663, 0x42)]));
        assert_refused(&fresh()[..21_663]);
        assert_refused(&[&fresh()[..], &[0]].concat());
        assert_refused(&[]);
    }

    #[test]
    fn r7_9_another_magic_or_layout_is_60_with_its_own_check_sum_too() {
        for (at, byte) in [(0, 0x88), (7, 0x54), (8, 1), (15, 2), (15, 4)] {
            let mut bytes: [u8; SAVED_SIZE] = fresh().try_into().unwrap();
            bytes[at] = byte;
            put_check_sum(&mut bytes);
            assert_refused(&bytes);
        }
    }

    #[test]
    fn r7_8_the_place_and_the_order_of_words() {
        let (mut accounts, mut ledger) = ([0; ACCOUNTS_SIZE], [0; LEDGER_SIZE]);
        accounts[0] = 0x0102_0304_0506_0708;
        accounts[519] = 0xA0;
        ledger[0] = 0xB0;
        ledger[2183] = 0xC0;
        let bytes = saved(&accounts, &ledger);
        assert_eq!(bytes[16..24], [1, 2, 3, 4, 5, 6, 7, 8]);
        assert_eq!([bytes[4175], bytes[4183], bytes[21_647]], [0xA0, 0xB0, 0xC0]);
        // 675 of the fresh service, 36 of the first word, and the three others.
        assert_eq!(bytes[21_654..21_656], (675u16 + 36 + 0xA0 + 0xB0 + 0xC0).to_be_bytes());
        let places = 2_881 + (1..=8).map(|i: u64| i * (16 + i)).sum::<u64>();
        let places = places + 0xA0 * 4_176 + 0xB0 * 4_184 + 0xC0 * 21_648;
        assert_eq!(bytes[21_656..], places.to_be_bytes());
    }

    #[test]
    fn r7_8_an_output_is_long_enough_or_stays() {
        let (none, empty) = ([0; ACCOUNTS_SIZE], [0; LEDGER_SIZE]);
        let mut output = [0xEE; SAVED_SIZE + 3];
        let short = &mut output[..SAVED_SIZE - 1];
        assert_eq!(save(&none, &empty, short), Err(Error::ResponseTooBig));
        assert!(output.iter().all(|&byte| byte == 0xEE));
        assert_eq!(save(&none, &empty, &mut output), Ok(21_664));
        assert!(output[..SAVED_SIZE] == fresh() && output[SAVED_SIZE..] == [0xEE; 3]);
    }
}
