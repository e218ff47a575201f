//! The sending end of extended length messages (document 02, Point 10), and the game of
//! its rounds against an interferer, on the machine of `elm`.

use crate::elm::{Line, Machine};
use crate::random::Random;
use crate::rules::{above_24_bits, interrogation_seal};

/// The bytes of a segment, and of a transmission.
pub const SEGMENT: usize = 10;
pub const TRANSMISSION: usize = 14;

/// The most segments of a message, and the most transmissions of a round.
pub const MOST: usize = 16;

#[derive(Debug, Clone, Copy, PartialEq, Eq)]
pub enum Call {
    Open,
    Round { acknowledged: u32, s: usize },
    Exchange,
}

/// Whether the bit of a segment is set: the first, the top one of 16, is for segment 0.
pub fn is_set(acknowledged: u32, number: usize) -> bool {
    number < MOST && acknowledged >> (15 - number) & 1 == 1
}

/// The segments of a message of this many that are not acknowledged.
pub fn waiting(acknowledged: u32, count: usize) -> Vec<usize> {
    (0..count).filter(|number| !is_set(acknowledged, *number)).collect()
}

impl Call {
    pub fn word(self) -> &'static str {
        match self {
            Call::Open => "open",
            Call::Round { .. } => "round",
            Call::Exchange => "exchange",
        }
    }

    fn rc(self) -> u8 {
        match self {
            Call::Open => 0,
            Call::Round { .. } => 1,
            Call::Exchange => 2,
        }
    }

    /// The numbers that it transmits of a message of this many segments.
    pub fn numbers(self, count: usize) -> Vec<usize> {
        match self {
            Call::Open | Call::Exchange => vec![count - 1],
            Call::Round { acknowledged, s } => {
                waiting(acknowledged, count).into_iter().cycle().take(s).collect()
            }
        }
    }
}

fn transmission(rc: u8, number: usize, data: &[u8], address: u32) -> Vec<u8> {
    let mut message = vec![0b1100_0000 | rc << 4 | number as u8];
    message.extend(&data[number * SEGMENT..(number + 1) * SEGMENT]);
    message.extend([0; 3]);
    interrogation_seal(&message, address).expect("the first bit is right")
}

/// The transmissions that a call writes, or the row that refuses it.
pub fn send(call: Call, address: u32, data: &[u8], room: usize) -> Result<Vec<Vec<u8>>, u8> {
    if above_24_bits(address) {
        return Err(3);
    }
    let count = data.len() / SEGMENT;
    let segmented = data.len() % SEGMENT == 0 && (2..=MOST).contains(&count);
    let sized = !matches!(call, Call::Round { s, .. } if !(1..=MOST).contains(&s));
    if !segmented || !sized {
        return Err(12);
    }
    let numbers = call.numbers(count);
    if room != numbers.len() * TRANSMISSION {
        return Err(12);
    }
    Ok(numbers.into_iter().map(|n| transmission(call.rc(), n, data, address)).collect())
}

/// How the interferer chooses the transmissions of a round that it destroys.
#[derive(Debug, Clone, Copy, PartialEq, Eq)]
pub enum Interferer {
    /// Up to so many, anywhere.
    Anywhere(usize),
    /// So many, and those that hurt most: what it leaves brings the fewest new numbers.
    Stubborn(usize),
    /// All of them.
    Everything,
}

impl Interferer {
    /// What it leaves of the numbers of a round, by place, before a receiver that holds these.
    fn leaves(self, random: &mut Random, numbers: &[usize], machine: &Machine) -> Vec<usize> {
        let all = numbers.len();
        match self {
            Interferer::Everything => Vec::new(),
            Interferer::Anywhere(k) => {
                let destroyed = random.below(k.min(all) + 1);
                random.choose(all - destroyed, all)
            }
            Interferer::Stubborn(k) => {
                let held = |place: usize| machine.held.contains_key(&(numbers[place] as u32));
                let times = |place: usize| numbers.iter().filter(|n| **n == numbers[place]).count();
                let mut places: Vec<usize> = (0..all).collect();
                places.sort_by_key(|p| (!held(*p), all - times(*p), numbers[*p]));
                places.truncate(all.saturating_sub(k));
                places.sort_unstable();
                places
            }
        }
    }
}

/// One move: a call of the sender with its buffer's length, or a message that the receiver hears.
pub enum Move {
    Sends(Call, usize),
    Hears(Vec<u8>),
}

/// The moves of a game, the machine at its end, and the round after which it was whole first.
pub struct Game {
    pub moves: Vec<Move>,
    pub machine: Machine,
    pub whole_after: Option<usize>,
}

/// Plays this many rounds of s transmissions, with the opening before them and an exchange
/// after each.
pub fn play(
    random: &mut Random,
    own: u32,
    data: &[u8],
    s: usize,
    interferer: Interferer,
    rounds: usize,
) -> Game {
    let mut game = Game { moves: Vec::new(), machine: Machine::default(), whole_after: None };
    let count = data.len() / SEGMENT;
    let mut acknowledged = 0;
    for message in game.sends(Call::Open, own, data, count) {
        game.hears(own, message);
    }
    for round in 1..=rounds {
        let call = Call::Round { acknowledged, s };
        let sent = game.sends(call, own, data, count);
        for place in interferer.leaves(random, &call.numbers(count), &game.machine.clone()) {
            game.hears(own, sent[place].clone());
        }
        for message in game.sends(Call::Exchange, own, data, count) {
            game.hears(own, message);
        }
        acknowledged = game.machine.acknowledgement();
        if game.machine.is_whole() && game.whole_after.is_none() {
            game.whole_after = Some(round);
        }
    }
    game
}

impl Game {
    fn sends(&mut self, call: Call, own: u32, data: &[u8], count: usize) -> Vec<Vec<u8>> {
        let room = call.numbers(count).len() * TRANSMISSION;
        self.moves.push(Move::Sends(call, room));
        send(call, own, data, room).expect("not refused")
    }

    fn hears(&mut self, own: u32, message: Vec<u8>) {
        self.machine.answer(&Line::Receive(own, message.clone()));
        self.moves.push(Move::Hears(message));
    }
}

#[cfg(test)]
mod tests {
    use super::*;
    use crate::poly::bits_of_bytes;
    use crate::rules::address_read;

    const OWN: u32 = 0x48_40D6;

    fn data(count: usize) -> Vec<u8> {
        (0..count * SEGMENT).map(|k| k as u8).collect()
    }

    fn numbers(acknowledged: u32, count: usize, s: usize) -> Vec<usize> {
        Call::Round { acknowledged, s }.numbers(count)
    }

    #[test]
    fn a_round_goes_by_what_is_not_acknowledged() {
        assert_eq!(numbers(0, 5, 3), [0, 1, 2]);
        assert_eq!(numbers(0, 5, 7), [0, 1, 2, 3, 4, 0, 1]);
        assert_eq!(numbers(0x8800, 5, 7), [1, 2, 3, 1, 2, 3, 1]);
        assert_eq!(numbers(0x07FF, 5, 2), [0, 1]);
        assert_eq!(numbers(0xF800, 5, 7), []);
    }

    #[test]
    fn a_transmission_has_its_parts() {
        for (call, rc) in
            [(Call::Open, 0), (Call::Round { acknowledged: 0, s: 1 }, 1), (Call::Exchange, 2)]
        {
            let sent = send(call, OWN, &data(3), 14).expect("not refused");
            let number = call.numbers(3)[0];
            let bits = bits_of_bytes(&sent[0][..1]);
            assert_eq!(crate::poly::word_of_bits(&bits), 192 + 16 * rc + number as u32);
            assert_eq!(sent[0][1..11], data(3)[number * 10..number * 10 + 10]);
            assert_eq!(address_read(&sent[0]), OWN);
        }
    }

    #[test]
    fn refusals() {
        let round = |s| Call::Round { acknowledged: 0, s };
        assert_eq!(send(Call::Open, 0x100_0000, &data(1), 0), Err(3));
        assert_eq!(send(Call::Open, OWN, &data(1), 14), Err(12));
        assert_eq!(send(Call::Open, OWN, &data(17), 14), Err(12));
        assert_eq!(send(Call::Open, OWN, &data(3)[..29], 14), Err(12));
        assert_eq!(send(Call::Open, OWN, &data(3), 28), Err(12));
        assert_eq!(send(round(0), OWN, &data(3), 0), Err(12));
        assert_eq!(send(round(17), OWN, &data(3), 238), Err(12));
        assert_eq!(send(round(2), OWN, &data(3), 14), Err(12));
        let all = Call::Round { acknowledged: 0xE000, s: 2 };
        assert_eq!(send(all, OWN, &data(3), 28), Err(12));
        assert_eq!(send(all, OWN, &data(3), 0), Ok(Vec::new()));
        for address in [0, 0xFF_FFFF] {
            assert!(send(Call::Open, address, &data(3), 14).is_ok());
        }
    }

    /// Every message and round, with every k below s: whole within as many rounds as there are
    /// segments, with the message's bytes.
    #[test]
    fn whole_in_time() {
        let mut random = Random::new(7);
        for count in 2..=MOST {
            for s in 1..=MOST {
                for k in 0..s {
                    for interferer in [Interferer::Anywhere(k), Interferer::Stubborn(k)] {
                        let game = play(&mut random, OWN, &data(count), s, interferer, count);
                        assert!(game.whole_after.is_some(), "{count} {s} {k}");
                        let held: Vec<u8> = game.machine.held.values().flatten().copied().collect();
                        assert_eq!(held, data(count));
                    }
                }
            }
        }
    }

    /// With k one below s the bound is met: as many rounds as segments where s is at least as
    /// large, else one less.
    #[test]
    fn the_bound_is_met() {
        let mut random = Random::new(8);
        for count in 2..=MOST {
            for s in 1..=MOST {
                let interferer = Interferer::Stubborn(s - 1);
                let game = play(&mut random, OWN, &data(count), s, interferer, count);
                let needed = if s < count { count - 1 } else { count };
                assert_eq!(game.whole_after, Some(needed), "{count} {s}");
            }
        }
    }

    #[test]
    fn kept_incomplete() {
        let mut random = Random::new(9);
        for count in 2..=MOST {
            let game = play(&mut random, OWN, &data(count), 16, Interferer::Everything, 40);
            assert_eq!(game.whole_after, None);
            assert_eq!(game.machine.held.len(), 1);
        }
    }
}
