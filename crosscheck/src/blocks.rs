//! Lines packed into whole inputs, and inputs of special sizes and contents.

use crate::random::Random;
use crate::run::Feed;
use crate::text::MOST_BYTES;

/// A made line, without its line feed, and what it was made for.
pub struct Made {
    pub text: Vec<u8>,
    pub aim: Option<Aim>,
}

/// A kind that the answer alone does not show. It counts if the reference's
/// answer is the one aimed at (any, if none is named).
#[derive(Clone)]
pub struct Aim {
    pub group: &'static str,
    pub kind: String,
    pub answer: Option<&'static str>,
}

impl Made {
    pub fn plain(text: Vec<u8>) -> Made {
        Made { text, aim: None }
    }

    pub fn aimed(
        text: Vec<u8>,
        group: &'static str,
        kind: impl ToString,
        answer: Option<&'static str>,
    ) -> Made {
        Made { text, aim: Some(Aim { group, kind: kind.to_string(), answer }) }
    }
}

/// The group of the malformed lines.
pub const MALFORMED: &str = "malformed lines";

/// The group of the special inputs.
pub const INPUTS: &str = "special inputs, each as a file, through a pipe and in small pieces";

/// One input of a program: its bytes, what its lines were made for (nothing
/// for a special input), and how it is fed.
pub struct Block {
    pub bytes: Vec<u8>,
    pub aims: Vec<Option<Aim>>,
    pub feed: Feed,
}

/// Packs made lines into inputs of up to 65,536 bytes. A line feed ends every
/// line but the last of each third input.
pub fn pack(made: Vec<Made>) -> Vec<Block> {
    let mut blocks: Vec<Block> = Vec::new();
    let mut bytes = Vec::new();
    let mut aims = Vec::new();
    let mut close = |bytes: &mut Vec<u8>, aims: &mut Vec<Option<Aim>>| {
        let last_is_empty = bytes.len() < 2 || bytes.ends_with(b"\n\n");
        if blocks.len() % 3 == 2 && !last_is_empty {
            bytes.pop();
        }
        let feed = Feed::ALL[blocks.len() % Feed::ALL.len()];
        blocks.push(Block { bytes: std::mem::take(bytes), aims: std::mem::take(aims), feed });
    };
    for line in made {
        if bytes.len() + line.text.len() + 1 > MOST_BYTES {
            close(&mut bytes, &mut aims);
        }
        bytes.extend(line.text);
        bytes.push(b'\n');
        aims.push(line.aim);
    }
    if !bytes.is_empty() {
        close(&mut bytes, &mut aims);
    }
    blocks
}

/// Whole lines up to `size` bytes, filled up by a malformed line, which is the
/// first so that the last one is well formed. `ended` has it end at a line feed.
fn filled(make: &mut dyn FnMut() -> Vec<u8>, size: usize, ended: bool) -> Vec<u8> {
    let mut lines = Vec::new();
    let wanted = if ended { size } else { size + 1 };
    loop {
        let line = make();
        if lines.len() + line.len() + 2 > wanted {
            break;
        }
        lines.extend(line);
        lines.push(b'\n');
    }
    let mut bytes = vec![b'F'; wanted - lines.len() - 1];
    bytes.push(b'\n');
    bytes.extend(lines);
    bytes.truncate(size);
    bytes
}

/// Random bytes of which one in `every` is a line feed.
fn random_bytes(random: &mut Random, size: usize, every: usize) -> Vec<u8> {
    let mut bytes = random.bytes(size);
    for byte in &mut bytes {
        if random.one_in(every) {
            *byte = b'\n';
        }
    }
    bytes
}

/// Random text of the bytes that well-formed lines are made of.
fn random_text(random: &mut Random, size: usize) -> Vec<u8> {
    (0..size).map(|_| *random.pick(b"0123456789ABCDEF  -\n")).collect()
}

/// A special input: its name and its bytes.
type Input = (&'static str, Vec<u8>);

/// Inputs of one or two lines.
fn small_inputs(line: &[u8]) -> Vec<Input> {
    vec![
        ("empty", Vec::new()),
        ("a line feed alone", b"\n".to_vec()),
        ("a byte without line feed", b"0".to_vec()),
        ("a space without line feed", b" ".to_vec()),
        ("NUL without line feed", b"\0".to_vec()),
        ("one line without line feed", line.to_vec()),
        ("one line with line feed", [line, b"\n"].concat()),
        ("one line and an empty one", [line, b"\n\n"].concat()),
        ("carriage returns and line feeds", [line, b"\r\n", line, b"\r\n"].concat()),
    ]
}

/// Inputs of sizes about the most that is not too long, and beyond.
fn sizes(make: &mut dyn FnMut() -> Vec<u8>) -> Vec<Input> {
    vec![
        ("65,535 bytes", filled(make, 65_535, true)),
        ("65,535 bytes without line feed at the end", filled(make, 65_535, false)),
        ("65,536 bytes", filled(make, 65_536, true)),
        ("65,536 bytes without line feed at the end", filled(make, 65_536, false)),
        ("65,537 bytes", filled(make, 65_537, true)),
        ("65,537 bytes without line feed at the end", filled(make, 65_537, false)),
        ("65,538 bytes", filled(make, 65_538, true)),
        ("131,072 bytes", filled(make, 131_072, true)),
        ("1,000,000 bytes", filled(make, 1_000_000, true)),
    ]
}

/// Full inputs of one byte value, and of random ones.
fn contents(random: &mut Random) -> Vec<Input> {
    vec![
        ("65,535 line feeds", vec![b'\n'; 65_535]),
        ("65,536 line feeds", vec![b'\n'; 65_536]),
        ("65,537 line feeds", vec![b'\n'; 65_537]),
        ("65,536 digits in one line", vec![b'0'; 65_536]),
        ("65,537 digits in one line", vec![b'0'; 65_537]),
        ("65,536 NULs", vec![0; 65_536]),
        ("65,536 bytes FF", vec![0xFF; 65_536]),
        ("random bytes, few line feeds", random_bytes(random, 65_536, 1000)),
        ("random bytes, many line feeds", random_bytes(random, 65_536, 8)),
        ("random bytes, 3,000", random_bytes(random, 3_000, 40)),
        ("random text of digits, spaces and line feeds", random_text(random, 65_536)),
    ]
}

/// All special inputs. `make` makes a well-formed line.
pub fn special_inputs(random: &mut Random, make: &mut dyn FnMut() -> Vec<u8>) -> Vec<Input> {
    let mut inputs = small_inputs(&make());
    inputs.extend(sizes(make));
    inputs.extend(contents(random));
    inputs
}

/// The special inputs as blocks, each fed in every way, with their names.
pub fn special_blocks(
    random: &mut Random,
    make: &mut dyn FnMut() -> Vec<u8>,
) -> Vec<(&'static str, Block)> {
    let mut blocks = Vec::new();
    for (name, bytes) in special_inputs(random, make) {
        for feed in Feed::ALL {
            blocks.push((name, Block { bytes: bytes.clone(), aims: Vec::new(), feed }));
        }
    }
    blocks
}

#[cfg(test)]
mod tests {
    use super::*;
    use crate::text::lines;

    #[test]
    fn packed_lines_stay_lines() {
        let made: Vec<Made> = (0..9000).map(|k| Made::plain(vec![b'7'; k % 60])).collect();
        let blocks = pack(made);
        assert!(blocks.len() > 3);
        let mut index = 0;
        for block in &blocks {
            assert!(block.bytes.len() <= MOST_BYTES);
            let lines = lines(&block.bytes);
            assert_eq!(lines.len(), block.aims.len());
            for line in lines {
                assert_eq!(line.len(), index % 60);
                index += 1;
            }
        }
        assert_eq!(index, 9000);
    }

    #[test]
    fn filled_to_the_byte() {
        for size in [65_535, 65_536, 65_537] {
            for ended in [true, false] {
                let bytes = filled(&mut || b"bits 00000000".to_vec(), size, ended);
                assert_eq!(bytes.len(), size);
                assert_eq!(bytes.ends_with(b"\n"), ended);
            }
        }
    }
}
