//! Document 01 but for the sensor: the table of refused calls, R, the two
//! seals, the address read from a message, and the transponder's answer, with
//! the broadcasts of document 02.
//!
//! For each call there is a list of all rows of the table that apply; the
//! lowest is the refusal.

use crate::poly::*;

/// The highest 24-bit word, and the address of an all-call and of a broadcast.
pub const HIGHEST: u32 = 0xFF_FFFF;

/// The format number of an all-call interrogation.
pub const ALL_CALL_FORMAT: u32 = 11;

/// The format numbers of a broadcast interrogation (Annex 10 Volume IV).
pub const BROADCAST_FORMATS: [u32; 2] = [20, 21];

/// Row 1 for a message.
pub fn wrong_message_length(message: &[u8]) -> bool {
    message.len() != 7 && message.len() != 14
}

/// Row 1 for a field.
pub fn wrong_field_length(field: &[u8]) -> bool {
    field.len() != 4 && field.len() != 11
}

/// Row 3.
pub fn above_24_bits(word: u32) -> bool {
    word > HIGHEST
}

/// Row 5: a first bit 0 belongs to 7 bytes and 1 to 14. Other lengths have no
/// first bit of their own to contradict; row 1 speaks of them.
pub fn wrong_first_bit(message: &[u8]) -> bool {
    match message.len() {
        7 => message[0] >= 0x80,
        14 => message[0] < 0x80,
        _ => false,
    }
}

/// Row 6.
pub fn unassigned(address: u32) -> bool {
    address == 0 || address == HIGHEST
}

/// The numbers of the rows whose condition holds, in rising order.
pub fn rows_that_apply(rows: &[(u8, bool)]) -> Vec<u8> {
    rows.iter().filter(|row| row.1).map(|row| row.0).collect()
}

pub fn seal_rows(message: &[u8], word: u32) -> Vec<u8> {
    rows_that_apply(&[
        (1, wrong_message_length(message)),
        (3, above_24_bits(word)),
        (5, wrong_first_bit(message)),
    ])
}

pub fn transponder_rows(message: &[u8], own: u32) -> Vec<u8> {
    rows_that_apply(&[
        (1, wrong_message_length(message)),
        (3, above_24_bits(own)),
        (5, wrong_first_bit(message)),
        (6, unassigned(own)),
    ])
}

/// R: the remainder of x^24 times the field.
pub fn parity(field: &[bool]) -> Bits {
    remainder(&times_power(field, DEGREE))
}

/// R of a field in bytes.
pub fn parity_of_bytes(field: &[u8]) -> u32 {
    word_of_bits(&parity(&bits_of_bytes(field)))
}

/// A message's remainder by G.
pub fn remainder_of_message(message: &[u8]) -> u32 {
    word_of_bits(&remainder(&bits_of_bytes(message)))
}

/// A step of the register: the remainder of x·word + bit·x^24.
pub fn register_step(word: u32, bit: bool) -> u32 {
    let mut shifted = times_power(&bits_of_word(word, DEGREE), 1);
    shifted[0] ^= bit;
    word_of_bits(&remainder(&shifted))
}

/// The 24-bit word whose product with x has the remainder `word`: of `word` and
/// `word` + G just one has no constant term, and is x times something.
pub fn step_back(word: u32) -> u32 {
    let mut multiple = bits_of_word(word, DEGREE + 1);
    if multiple[DEGREE] {
        multiple = add(&multiple, generator());
    }
    let constant = multiple.pop();
    assert_eq!(constant, Some(false), "a multiple of x");
    assert_eq!(remainder(&times_power(&multiple, 1)), bits_of_word(word, DEGREE));
    word_of_bits(&multiple)
}

/// The overlay of an interrogation: the coefficients x^47 to x^24 of A·G.
pub fn overlay(address: u32) -> u32 {
    let whole = product(&bits_of_word(address, DEGREE), generator());
    assert_eq!(whole.len(), 48);
    word_of_bits(&whole[..DEGREE])
}

/// The message of this field whose parity field is R + `added`.
pub fn with_parity(field: &[bool], added: u32) -> Bits {
    let mut message = field.to_vec();
    message.extend(add(&parity(field), &bits_of_word(added, DEGREE)));
    message
}

/// The reply seal for a word.
pub fn reply_seal(message: &[u8], word: u32) -> Result<Vec<u8>, u8> {
    seal(message, word, word)
}

/// The interrogation seal for an address.
pub fn interrogation_seal(message: &[u8], address: u32) -> Result<Vec<u8>, u8> {
    seal(message, address, overlay(address & HIGHEST))
}

fn seal(message: &[u8], word: u32, added: u32) -> Result<Vec<u8>, u8> {
    if let Some(row) = seal_rows(message, word).first() {
        return Err(*row);
    }
    let field = bits_of_bytes(&message[..message.len() - 3]);
    Ok(bytes_of_bits(&with_parity(&field, added)))
}

/// The address read: the low 24 coefficients of the quotient of x^24·U by G.
pub fn address_read(message: &[u8]) -> u32 {
    let dividend = times_power(&bits_of_bytes(message), DEGREE);
    let (quotient, _) = divide(&dividend, generator());
    word_of_bits(&quotient[quotient.len() - DEGREE..])
}

/// Bits 1 to 5 as a number.
pub fn format_number(message: &[u8]) -> u32 {
    word_of_bits(&bits_of_bytes(message)[..5])
}

#[derive(Debug, PartialEq, Eq, Clone, Copy)]
pub enum Heard {
    Own,
    AllCall,
    Broadcast,
    NotOurs(u32),
    Refused(u8),
}

/// The transponder's answer to a message, with its own address.
pub fn transponder(message: &[u8], own: u32) -> Heard {
    if let Some(row) = transponder_rows(message, own).first() {
        return Heard::Refused(*row);
    }
    match (address_read(message), format_number(message)) {
        (address, _) if address == own => Heard::Own,
        (HIGHEST, ALL_CALL_FORMAT) => Heard::AllCall,
        (HIGHEST, format) if BROADCAST_FORMATS.contains(&format) => Heard::Broadcast,
        (address, _) => Heard::NotOurs(address),
    }
}

#[cfg(test)]
mod tests {
    use super::*;
    use crate::random::Random;

    fn message(random: &mut Random, length: usize) -> Vec<u8> {
        let mut bytes = random.bytes(length);
        bytes[0] = if length == 7 { bytes[0] & 0x7F } else { bytes[0] | 0x80 };
        bytes
    }

    #[test]
    fn sealed_and_read() {
        let mut random = Random::new(5);
        for turn in 0..400 {
            let sent = message(&mut random, if turn % 2 == 0 { 7 } else { 14 });
            let word = random.word();
            let reply = reply_seal(&sent, word).expect("not refused");
            assert_eq!(remainder_of_message(&reply), word);
            let interrogation = interrogation_seal(&sent, word).expect("not refused");
            assert_eq!(address_read(&interrogation), word);
            assert_eq!(interrogation_seal(&sent, address_read(&sent)), Ok(sent));
        }
    }

    #[test]
    fn back_and_forth() {
        let mut random = Random::new(6);
        for _ in 0..400 {
            let word = random.word();
            assert_eq!(register_step(step_back(word), false), word);
            assert_eq!(step_back(register_step(word, false)), word);
        }
    }

    #[test]
    fn for_all_by_format() {
        for format in 0..32 {
            let mut sent = vec![0; if format < 16 { 7 } else { 14 }];
            sent[0] = format << 3;
            let sent = interrogation_seal(&sent, HIGHEST).expect("not refused");
            let expected = match format {
                11 => Heard::AllCall,
                20 | 21 => Heard::Broadcast,
                _ => Heard::NotOurs(HIGHEST),
            };
            assert_eq!(transponder(&sent, 0x12_3456), expected);
        }
    }

    #[test]
    fn lowest_row_wins() {
        assert_eq!(seal_rows(&[0x80; 7], 0x100_0000), [3, 5]);
        assert_eq!(transponder_rows(&[0; 6], HIGHEST), [1, 6]);
        assert_eq!(transponder(&[0x80; 7], 0), Heard::Refused(5));
        assert_eq!(reply_seal(&[], 0x100_0000), Err(1));
    }
}
