//! The numbered questions of rows and stores, and a model of LEB128 and of names in the terms of document 01, RFC 3629 and
//! DWARF 5. It shares no code with the Rust or the Rattle, and says which number a refusal has where the Rust only
//! refuses. The rows themselves are in rows.rs.

/// What restore can answer, in the order of its questions.
pub const OF_RESTORE: [u32; 34] = [
    1, 2, 3, 4, 5, 6, 7, 8, 9, 10, 11, 12, 13, 14, 15, 16, 54, 17, 18, 19, 20, 21, 22, 23, 24, 25,
    26, 27, 28, 29, 30, 31, 32, 33,
];
/// Refusals to which the Rust is not held: it has no limit of chains (02, A10), and overflows where 33 is a no.
pub const NOT_IN_RUST: [u32; 2] = [CHAIN_COUNT, SLOT_BELOW];

/// Is entry 0 a device, and every later kind 1 to 3 and not below the one before?
pub const KINDS: u32 = 1;
/// Does start + length stay within the run?
pub const IN_RUN: u32 = 2;
/// Version 3?
pub const VERSION: u32 = 3;
/// Field wholly in the row?
pub const WHOLE: u32 = 4;
/// Flag 0 or 1?
pub const FLAG: u32 = 5;
/// Role, mode, verification, dir or kind a listed code?
pub const CODE: u32 = 6;
/// Caps bits 2 to 7 clear?
pub const CAPS: u32 = 7;
/// Name length at most 48?
pub const NAME_LENGTH: u32 = 8;
/// Name UTF-8?
pub const NAME: u32 = 9;
/// Card used up?
pub const USED_UP: u32 = 10;
/// Copies 1 to 16 and lifetime 60 to 10,080?
pub const COURIER: u32 = 11;
/// LEB128 minimal, at most 2^32 - 1?
pub const LEB128: u32 = 12;
/// Sealed length allowed?
pub const SEALED: u32 = 13;
/// Carried copies not 0?
pub const CARRIED_COPIES: u32 = 14;
/// Carried expiry not 0?
pub const CARRIED_EXPIRY: u32 = 15;
/// Nothing after the last field?
pub const END: u32 = 16;
/// At most eight chains? Asked between 16 and 17 (02, A10).
pub const CHAIN_COUNT: u32 = 54;
/// At most one chain not superseded?
pub const ONE_CHAIN: u32 = 17;
/// Chain gens distinct?
pub const CHAIN_GENS: u32 = 18;
/// Skipped (gen, idx) distinct?
pub const SKIPPED: u32 = 19;
/// At most 500 skipped?
pub const SKIPPED_COUNT: u32 = 20;
/// peer_acked at most sent_msgno?
pub const ACKED: u32 = 21;
/// unacked strictly rising, from 1 to sent_msgno?
pub const UNACKED: u32 = 22;
/// `above` canonical from contiguous + 2?
pub const ABOVE: u32 = 23;
/// expired canonical from 1, none above sent_msgno?
pub const EXPIRED: u32 = 24;
/// Contact below next_contact?
pub const CONTACT_BELOW: u32 = 25;
/// Contact new?
pub const CONTACT_NEW: u32 = 26;
/// Queued row's contact restored?
pub const QUEUED_CONTACT: u32 = 27;
/// Its msgno 1 to sent_msgno?
pub const QUEUED_MSGNO: u32 = 28;
/// Not in unacked?
pub const QUEUED_UNACKED: u32 = 29;
/// (contact, msgno) new?
pub const QUEUED_NEW: u32 = 30;
/// Depositor below next_contact?
pub const DEPOSITOR: u32 = 31;
/// Slot new?
pub const SLOT_NEW: u32 = 32;
/// Slot below 2^64 - 1?
pub const SLOT_BELOW: u32 = 33;
/// Store restored, a contact open, and would what is handed in pass?
pub const STORE: u32 = 34;
/// open: contact in the store?
pub const CONTACT_STORED: u32 = 35;
/// Each lent list long enough for the row's items?
pub const LISTS: u32 = 36;
/// cover, covers: 1 <= from <= to?
pub const RANGE: u32 = 37;
/// cover: do the resulting ranges fit the limit?
pub const LIMIT: u32 = 38;
/// take: sent_msgno below 2^32 - 1?
pub const LAST_MSGNO: u32 = 39;
/// Output long enough?
pub const OUTPUT: u32 = 40;
/// Letter, field count and LF right?
pub const LINE: u32 = 41;
/// Decimals without leading zeros, within width?
pub const DECIMAL: u32 = 42;
/// Blob of digit pairs?
pub const BLOB: u32 = 43;
/// At most 61,440 blob bytes, 512 lines?
pub const SHEET_ROOM: u32 = 44;

/// The number where the answer is no.
pub fn ask(number: u32, yes: bool) -> Result<(), u32> {
    if yes { Ok(()) } else { Err(number) }
}

/// The value at the front of `input` and the bytes it takes, or the question's number.
pub fn read_leb128(input: &[u8]) -> Result<(u32, usize), u32> {
    let front = &input[..input.len().min(5)];
    let last = match front.iter().position(|byte| *byte < 0x80) {
        Some(last) => last,
        // Without an end: a fifth byte is above 0f; a byte before it goes on to one that is missing.
        None if front.len() == 5 => return Err(LEB128),
        None => return Err(WHOLE),
    };
    if last == 4 && front[4] > 0x0f || last > 0 && front[last] == 0 {
        return Err(LEB128);
    }
    // DWARF 5, 7.6: seven bits a byte, the lowest first.
    let value = front[..=last]
        .iter()
        .rev()
        .fold(0u64, |value, byte| value * 128 + u64::from(byte % 128));
    let value = u32::try_from(value).expect("four groups of seven bits and one of four");
    Ok((value, last + 1))
}

/// The fewest groups of seven bits that hold `value`, each but the last marked as followed.
pub fn leb128(value: u32) -> Vec<u8> {
    let value = u64::from(value);
    let size = (1..)
        .find(|size| value < 128u64.pow(*size))
        .expect("five groups hold 35 bits");
    (0..size)
        .map(|index| {
            let group = (value / 128u64.pow(index) % 128) as u8;
            if index + 1 < size { group + 128 } else { group }
        })
        .collect()
}

/// The lowest and the highest byte.
type Bytes = (u8, u8);

/// RFC 3629, section 4: the first byte's range, the second's if there is one, and how many tails follow.
const FORMS: [(Bytes, Option<Bytes>, usize); 9] = [
    ((0x00, 0x7f), None, 0),
    ((0xc2, 0xdf), Some((0x80, 0xbf)), 0),
    ((0xe0, 0xe0), Some((0xa0, 0xbf)), 1),
    ((0xe1, 0xec), Some((0x80, 0xbf)), 1),
    ((0xed, 0xed), Some((0x80, 0x9f)), 1),
    ((0xee, 0xef), Some((0x80, 0xbf)), 1),
    ((0xf0, 0xf0), Some((0x90, 0xbf)), 2),
    ((0xf1, 0xf3), Some((0x80, 0xbf)), 2),
    ((0xf4, 0xf4), Some((0x80, 0x8f)), 2),
];

fn within(byte: u8, (low, high): Bytes) -> bool {
    low <= byte && byte <= high
}

/// What follows the character at the front of a text that is not empty, if one is there.
fn after_character(text: &[u8]) -> Option<&[u8]> {
    let (first, rest) = text.split_first()?;
    let (_, second, tails) = FORMS.iter().find(|(range, _, _)| within(*first, *range))?;
    let rest = match second {
        None => rest,
        Some(range) => {
            let (byte, rest) = rest.split_first()?;
            within(*byte, *range).then_some(rest)?
        }
    };
    let (tail, rest) = rest.split_at_checked(*tails)?;
    tail.iter()
        .all(|byte| within(*byte, (0x80, 0xbf)))
        .then_some(rest)
}

/// Whether `text` is a sequence of characters in UTF-8.
pub fn utf8(mut text: &[u8]) -> bool {
    while !text.is_empty() {
        match after_character(text) {
            Some(rest) => text = rest,
            None => return false,
        }
    }
    true
}
