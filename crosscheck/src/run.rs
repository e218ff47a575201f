//! A program as a child process: an input is fed to it, its standard output and
//! what it says on standard error are taken, and the first line that differs from
//! the expected output is shown.

use std::fs::File;
use std::io::{Read, Write};
use std::path::{Path, PathBuf};
use std::process::{Child, ChildStdin, Command, Stdio};
use std::sync::atomic::{AtomicUsize, Ordering};
use std::sync::mpsc;
use std::thread;
use std::time::Duration;

/// How an input reaches the program's standard input.
#[derive(Clone, Copy, PartialEq, Eq, Debug)]
pub enum Feed {
    /// As a file.
    File,
    /// Through a pipe, all at once.
    Pipe,
    /// Through a pipe in many small pieces, so that reads come back short.
    Pieces,
}

impl Feed {
    pub const ALL: [Feed; 3] = [Feed::File, Feed::Pipe, Feed::Pieces];
}

/// Every call ends: a program gets this long for one input.
const PATIENCE: Duration = Duration::from_secs(30);

/// A file of this process's own in the folder for temporary files, removed
/// when it is dropped.
pub struct TemporaryFile {
    pub path: PathBuf,
}

impl TemporaryFile {
    pub fn new(bytes: &[u8]) -> Result<TemporaryFile, String> {
        static COUNT: AtomicUsize = AtomicUsize::new(0);
        let count = COUNT.fetch_add(1, Ordering::Relaxed);
        let file = format!("crosscheck-{}-{count}", std::process::id());
        let path = std::env::temp_dir().join(file);
        std::fs::write(&path, bytes).map_err(|error| format!("{}: {error}", path.display()))?;
        Ok(TemporaryFile { path })
    }

    pub fn open(&self) -> Result<File, String> {
        File::open(&self.path).map_err(|error| format!("{}: {error}", self.path.display()))
    }
}

impl Drop for TemporaryFile {
    fn drop(&mut self) {
        let _ = std::fs::remove_file(&self.path);
    }
}

/// What a program wrote: its output, and what it said on standard error.
#[derive(Debug, PartialEq, Eq)]
pub struct Written {
    pub output: Vec<u8>,
    pub said: String,
}

/// The output of a program that has nothing to say on standard error. An error
/// if it says something, cannot be run, does not end in time, or ends with a
/// status other than 0.
pub fn run(program: &Path, input: &[u8], feed: Feed) -> Result<Vec<u8>, String> {
    let Written { output, said } = run_and_hear(program, input, feed)?;
    if said.is_empty() {
        Ok(output)
    } else {
        Err(format!("{} said: {said}", program.display()))
    }
}

/// What a program writes for an input. An error if it cannot be run, does not
/// end in time, or ends with a status other than 0.
pub fn run_and_hear(program: &Path, input: &[u8], feed: Feed) -> Result<Written, String> {
    let file = match feed {
        Feed::File => Some(TemporaryFile::new(input)?),
        _ => None,
    };
    let stdin = match &file {
        Some(file) => Stdio::from(file.open()?),
        None => Stdio::piped(),
    };
    let mut child = Command::new(program)
        .stdin(stdin)
        .stdout(Stdio::piped())
        .stderr(Stdio::piped())
        .spawn()
        .map_err(|error| format!("{}: {error}", program.display()))?;
    thread::scope(|scope| {
        if let Some(pipe) = child.stdin.take() {
            scope.spawn(move || write_all(pipe, input, feed));
        }
        let stdout = read_all(child.stdout.take().expect("a pipe"));
        let stderr = read_all(child.stderr.take().expect("a pipe"));
        ended(&mut child, program, &stdout, &stderr)
    })
}

/// What a program has written when it has ended, unless it failed.
fn ended(
    child: &mut Child,
    program: &Path,
    stdout: &Brought,
    stderr: &Brought,
) -> Result<Written, String> {
    let output = collect(child, stdout)?;
    let said = String::from_utf8_lossy(&collect(child, stderr)?).into_owned();
    let status = child.wait().map_err(|error| error.to_string())?;
    if status.success() {
        Ok(Written { output, said })
    } else {
        Err(format!("{} ended with {status}", program.display()))
    }
}

/// What a program writes for an input that comes through a pipe in pieces that end
/// at the given places, in rising order. Each piece is written when the program waits
/// for one, so that a read ends where the piece does.
pub fn run_in_cuts(program: &Path, input: &[u8], cuts: &[usize]) -> Result<Written, String> {
    let mut child = Command::new(program)
        .stdin(Stdio::piped())
        .stdout(Stdio::piped())
        .stderr(Stdio::piped())
        .spawn()
        .map_err(|error| format!("{}: {error}", program.display()))?;
    let mut pipe = child.stdin.take().expect("a pipe");
    let stdout = read_all(child.stdout.take().expect("a pipe"));
    let stderr = read_all(child.stderr.take().expect("a pipe"));
    let mut start = 0;
    for end in cuts.iter().copied().chain([input.len()]) {
        wait_until_it_sleeps(&child);
        if pipe.write_all(&input[start..end]).is_err() {
            break;
        }
        start = end;
    }
    drop(pipe);
    ended(&mut child, program, &stdout, &stderr)
}

/// A program that sleeps has read all there was. Where the system does not tell, or
/// after a tenth of a second, it is as well: then two pieces may be read as one.
fn wait_until_it_sleeps(child: &Child) {
    let file = format!("/proc/{}/stat", child.id());
    for _ in 0..2000 {
        match std::fs::read_to_string(&file) {
            // the state follows the program's name, which stands in parentheses
            Ok(text) if text.rsplit(") ").next().is_some_and(|rest| rest.starts_with('S')) => {
                return
            }
            Ok(_) => thread::sleep(Duration::from_micros(50)),
            Err(_) => return,
        }
    }
}

/// Writes the input. A program may stop reading once the input is too long, so
/// a broken pipe is no error here: its output tells.
fn write_all(mut pipe: ChildStdin, input: &[u8], feed: Feed) {
    let pieces = match feed {
        Feed::Pieces => input.chunks(1999),
        _ => input.chunks(input.len().max(1)),
    };
    for piece in pieces {
        if pipe.write_all(piece).is_err() {
            return;
        }
        thread::yield_now();
    }
}

/// What a pipe brings, once it has ended.
type Brought = mpsc::Receiver<std::io::Result<Vec<u8>>>;

/// Reads a pipe to its end, in a thread of its own.
fn read_all(mut pipe: impl Read + Send + 'static) -> Brought {
    let (sender, receiver) = mpsc::channel();
    thread::spawn(move || {
        let mut bytes = Vec::new();
        let result = pipe.read_to_end(&mut bytes).map(|_| bytes);
        let _ = sender.send(result);
    });
    receiver
}

/// What one of the child's pipes brings, or stops the child.
fn collect(child: &mut Child, brought: &Brought) -> Result<Vec<u8>, String> {
    match brought.recv_timeout(PATIENCE) {
        Ok(result) => result.map_err(|error| error.to_string()),
        Err(_) => {
            let _ = child.kill();
            let _ = child.wait();
            Err(format!("did not end within {} seconds", PATIENCE.as_secs()))
        }
    }
}

/// Where two outputs first differ: nothing if they are equal.
pub fn first_difference(input: &[u8], ours: &[u8], theirs: &[u8]) -> Option<String> {
    if ours == theirs {
        return None;
    }
    let our_lines: Vec<&[u8]> = ours.split_inclusive(|byte| *byte == b'\n').collect();
    let their_lines: Vec<&[u8]> = theirs.split_inclusive(|byte| *byte == b'\n').collect();
    let most = our_lines.len().max(their_lines.len());
    let at = (0..most).find(|k| our_lines.get(*k) != their_lines.get(*k))?;
    let our_line = our_lines.get(at).copied().unwrap_or(b"(nothing)");
    let first = our_line.split(|byte| *byte == b' ').next().unwrap_or(b"");
    let number: usize = String::from_utf8_lossy(first).parse().unwrap_or(0);
    let line = number.checked_sub(1).and_then(|k| crate::text::lines(input).get(k).copied());
    Some(format!(
        "output line {} of an input of {} bytes\n  input line: {}\n  ours:       {}\n  theirs:     {}",
        at + 1,
        input.len(),
        line.map_or("(none)".to_string(), shown),
        shown(our_line),
        their_lines.get(at).map_or("(nothing)".to_string(), |line| shown(line)),
    ))
}

/// Bytes for a reader: printable ASCII as it is, the rest escaped, cut short.
fn shown(bytes: &[u8]) -> String {
    let text = bytes.escape_ascii().to_string();
    if text.len() > 300 {
        format!("{}.. ({} bytes)", &text[..300], bytes.len())
    } else {
        text
    }
}

#[cfg(test)]
mod tests {
    use super::*;

    #[test]
    fn a_program_that_copies() {
        for size in [0, 1, 65_536, 300_000] {
            let input: Vec<u8> = (0..size).map(|k| k as u8).collect();
            for feed in Feed::ALL {
                assert_eq!(run(Path::new("cat"), &input, feed), Ok(input.clone()));
            }
        }
    }

    #[test]
    fn a_program_that_fails_or_is_not_there() {
        assert!(run(Path::new("false"), b"", Feed::File).is_err());
        assert!(run(Path::new("/no/such/program"), b"", Feed::File).is_err());
    }

    #[test]
    fn a_program_that_says_something() {
        let shell = Path::new("sh");
        let commands = b"echo output; echo said >&2";
        let written = Written { output: b"output\n".to_vec(), said: "said\n".to_string() };
        assert_eq!(run_and_hear(shell, commands, Feed::Pipe), Ok(written));
        assert!(run(shell, commands, Feed::Pipe).is_err());
    }

    /// `dd` says how many reads came back short.
    #[test]
    fn a_read_ends_where_a_piece_does() {
        let written = run_in_cuts(Path::new("dd"), b"some bytes", &[1, 2, 7]).expect("it runs");
        assert_eq!(written.output, b"some bytes");
        assert!(written.said.starts_with("0+4 "), "{}", written.said);
    }

    #[test]
    fn the_difference_shows_all_three() {
        let shown = first_difference(b"x\ny\n", b"1 a\n2 b\n", b"1 a\n2 c\n").expect("differs");
        for part in ["output line 2", "input line: y", "2 b", "2 c"] {
            assert!(shown.contains(part), "{shown}");
        }
        assert_eq!(first_difference(b"", b"same", b"same"), None);
        assert!(first_difference(b"x", b"1 a\n", b"1 a").is_some());
    }
}
