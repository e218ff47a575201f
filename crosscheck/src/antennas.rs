//! The two-antenna transponder (document 02, Point 5): which of two received
//! buffers is taken, and the part of it that is returned.

use crate::rules::*;

/// What one antenna received, and its level.
#[derive(Debug, Clone, PartialEq, Eq)]
pub struct Received {
    pub message: Vec<u8>,
    pub level: u8,
}

/// Whose buffer is taken.
#[derive(Debug, Clone, Copy, PartialEq, Eq)]
pub enum Antenna {
    Upper,
    Lower,
    Neither,
}

impl Antenna {
    /// The answer as it is printed.
    pub fn word(self) -> &'static str {
        match self {
            Antenna::Upper => "upper",
            Antenna::Lower => "lower",
            Antenna::Neither => "neither",
        }
    }
}

/// The rows speak of the own address alone.
pub fn antenna_rows(own: u32) -> Vec<u8> {
    rows_that_apply(&[(3, above_24_bits(own)), (6, unassigned(own))])
}

/// Whether the transponder would accept a message.
pub fn is_taken(message: &[u8], own: u32) -> bool {
    match transponder(message, own) {
        Heard::Own | Heard::AllCall | Heard::Broadcast => true,
        Heard::NotOurs(_) | Heard::Refused(_) => false,
    }
}

/// The antenna and the part, in a call that no row refuses: of those that are
/// taken the first with the highest level.
pub fn take<'a>(own: u32, upper: &'a Received, lower: &'a Received) -> (Antenna, &'a [u8]) {
    let both = [(Antenna::Upper, upper), (Antenna::Lower, lower)];
    let taken = both.into_iter().filter(|(_, received)| is_taken(&received.message, own));
    let highest = taken.clone().map(|(_, received)| received.level).max();
    let first = taken.clone().find(|(_, received)| Some(received.level) == highest);
    match first {
        Some((antenna, Received { message, .. })) => (antenna, &message[..message.len() - 3]),
        None => (Antenna::Neither, &[]),
    }
}

#[cfg(test)]
mod tests {
    use super::*;

    const OWN: u32 = 0x48_40D6;

    fn received(field: &[u8], address: u32, level: u8) -> Received {
        let message = [field, &[0; 3]].concat();
        Received { message: interrogation_seal(&message, address).expect("not refused"), level }
    }

    #[test]
    fn the_higher_level_whatever_it_is() {
        let own = |level| received(&[0x20, 1, 2, 3], OWN, level);
        let all_call = |level| received(&[0x58, 4, 5, 6], HIGHEST, level);
        for level in [0, 1, 127, 128, 255] {
            assert_eq!(take(OWN, &own(level), &all_call(level)).0, Antenna::Upper);
            assert_eq!(take(OWN, &all_call(level), &own(level)).0, Antenna::Upper);
        }
        assert_eq!(take(OWN, &own(4), &all_call(5)), (Antenna::Lower, &[0x58, 4, 5, 6][..]));
        assert_eq!(take(OWN, &all_call(5), &own(4)), (Antenna::Upper, &[0x58, 4, 5, 6][..]));
        assert_eq!(take(OWN, &own(128), &all_call(127)), (Antenna::Upper, &[0x20, 1, 2, 3][..]));
    }

    #[test]
    fn a_buffer_that_is_not_taken() {
        let own = received(&[0x20, 1, 2, 3], OWN, 0);
        let broadcast = received(&[0xA0, 1, 2, 3, 4, 5, 6, 7, 8, 9, 10], HIGHEST, 0);
        let mut others = vec![received(&[0x20, 1, 2, 3], 1, 255), received(&[0; 4], HIGHEST, 255)];
        others.extend([0, 6, 8].map(|n| Received { message: vec![0; n], level: 255 }));
        others.push(Received { message: vec![0x80; 7], level: 255 });
        for other in others {
            assert_eq!(take(OWN, &other, &own), (Antenna::Lower, &own.message[..4]));
            assert_eq!(take(OWN, &broadcast, &other), (Antenna::Upper, &broadcast.message[..11]));
            assert_eq!(take(OWN, &other, &other), (Antenna::Neither, &[][..]));
        }
    }

    #[test]
    fn rows() {
        assert_eq!(antenna_rows(OWN), []);
        assert_eq!(antenna_rows(0x100_0000), [3]);
        assert_eq!([0, HIGHEST].map(antenna_rows), [[6], [6]]);
    }
}
