//! What `tally` has to print for a whole input (document 02, Point 9), from
//! what this crate's own `sift` makes of each line.

use crate::sensor::Answer;
use crate::sift::{judge, Judged};
use crate::text::{lines, MOST_BYTES, TOO_LONG};

/// The names after `lines`, in their order.
pub const NAMES: [&str; 7] = ["clean", "sole", "several", "dense", "nofit", "refused", "malformed"];

/// The name that a line counts for: 'sole and several are the corrected ones'.
pub fn name_of(judged: &Judged) -> &'static str {
    let Some((_, verdict)) = judged else {
        return "malformed";
    };
    match verdict.answer {
        Answer::Refused(_) => "refused",
        Answer::Clean => "clean",
        Answer::Dense { .. } => "dense",
        Answer::NoFit => "nofit",
        Answer::Corrected { mark, .. } => mark.word(),
    }
}

/// The whole output for a whole input; `met` is shown each line's outcome.
pub fn output_and_show(input: &[u8], mut met: impl FnMut(usize, &Judged)) -> Vec<u8> {
    if input.len() > MOST_BYTES {
        return TOO_LONG.as_bytes().to_vec();
    }
    let mut counted: Vec<&str> = Vec::new();
    for (k, line) in lines(input).into_iter().enumerate() {
        let judged = judge(line);
        met(k, &judged);
        counted.push(name_of(&judged));
    }
    let mut page = format!("lines {}\n", counted.len());
    for name in NAMES {
        let number = counted.iter().filter(|counted| **counted == name).count();
        page += &format!("{name} {number}\n");
    }
    page.into_bytes()
}

pub fn output(input: &[u8]) -> Vec<u8> {
    output_and_show(input, |_, _| ())
}

#[cfg(test)]
mod tests {
    use super::*;

    fn page(numbers: [usize; 8]) -> String {
        let names = ["lines"].into_iter().chain(NAMES);
        names.zip(numbers).map(|(name, number)| format!("{name} {number}\n")).collect()
    }

    #[test]
    fn document_01s_example() {
        let input = b"00000000EB2472 00008000000000 123456 24\n\
            00008000EB2472 00000000000000 123456 24\n\
            00000000EB2472 00000000000000 123456 25\n";
        assert_eq!(String::from_utf8_lossy(&output(input)), page([3, 1, 1, 0, 0, 0, 1, 0]));
    }

    #[test]
    fn inputs_at_the_edges() {
        let ends = |input: &[u8], end: &str| {
            assert_eq!(String::from_utf8_lossy(&output(input)), end);
        };
        ends(b"", &page([0; 8]));
        ends(b"\n\n0", &page([3, 0, 0, 0, 0, 0, 0, 3]));
        ends(&[b'\n'; MOST_BYTES], &page([65_536, 0, 0, 0, 0, 0, 0, 65_536]));
        ends(&[b'\n'; MOST_BYTES + 1], "too long\n");
    }
}
