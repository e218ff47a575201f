//! The five functions of the C library, each behind a safe one that lends it
//! buffers with guard bytes, or guard words, on both sides.
//!
//! The declarations are those of include/mode_s.h. Nothing checks them against
//! it, nor the header against the library; that every part comes back right is
//! what the comparison shows.

mod declared {
    extern "C" {
        pub fn mode_s_seal_reply(message: *mut u8, length: usize, word: u32) -> u64;
        pub fn mode_s_seal_interrogation(message: *mut u8, length: usize, address: u32) -> u64;
        pub fn mode_s_receive(own: u32, message: *const u8, length: usize) -> u64;
        pub fn mode_s_correct(
            message: *mut u8,
            length: usize,
            confidence: *const u8,
            confidence_length: usize,
            word: u32,
            limit: u32,
        ) -> u64;
        pub fn mode_s_remainders(
            replies: *const u8,
            length: usize,
            remainders: *mut u32,
            count: usize,
        ) -> u64;
    }
}

/// The bytes on each side of a buffer.
const GUARD: usize = 32;

/// A buffer with guard bytes around it. One of no bytes can be a null pointer.
pub struct Guarded {
    bytes: Vec<u8>,
    before: Vec<u8>,
    null: bool,
}

impl Guarded {
    /// The guard bytes go by `salt`, so that a byte written there is noticed
    /// whatever its value is in the end.
    pub fn new(content: &[u8], salt: u64, null: bool) -> Guarded {
        let guard = |at: usize| (salt >> (8 * (at % 8))) as u8 ^ at as u8;
        let mut bytes: Vec<u8> = (0..GUARD).map(guard).collect();
        bytes.extend_from_slice(content);
        bytes.extend((GUARD..2 * GUARD).map(guard));
        Guarded { before: bytes.clone(), bytes, null: null && content.is_empty() }
    }

    fn length(&self) -> usize {
        self.bytes.len() - 2 * GUARD
    }

    fn pointer(&mut self) -> *mut u8 {
        if self.null {
            std::ptr::null_mut()
        } else {
            self.bytes[GUARD..].as_mut_ptr()
        }
    }

    pub fn is_null(&self) -> bool {
        self.null
    }

    pub fn content(&self) -> &[u8] {
        &self.bytes[GUARD..GUARD + self.length()]
    }

    /// Whether no guard byte has changed.
    pub fn is_whole(&self) -> bool {
        let end = GUARD + self.length();
        self.bytes[..GUARD] == self.before[..GUARD] && self.bytes[end..] == self.before[end..]
    }

    /// Whether no byte at all has changed.
    pub fn is_untouched(&self) -> bool {
        self.bytes == self.before
    }
}

/// Words to be written, with guard words around them. None can be a null pointer.
pub struct GuardedWords {
    words: Vec<u32>,
    before: Vec<u32>,
    null: bool,
}

impl GuardedWords {
    pub fn new(count: usize, salt: u64, null: bool) -> GuardedWords {
        let word = |at: usize| (salt as u32).wrapping_mul(2 * at as u32 + 1) ^ (salt >> 32) as u32;
        let words: Vec<u32> = (0..count + 2 * GUARD).map(word).collect();
        GuardedWords { before: words.clone(), words, null: null && count == 0 }
    }

    fn count(&self) -> usize {
        self.words.len() - 2 * GUARD
    }

    fn pointer(&mut self) -> *mut u32 {
        if self.null {
            std::ptr::null_mut()
        } else {
            self.words[GUARD..].as_mut_ptr()
        }
    }

    pub fn is_null(&self) -> bool {
        self.null
    }

    pub fn content(&self) -> &[u32] {
        &self.words[GUARD..GUARD + self.count()]
    }

    /// The words as they were before the call.
    pub fn handed(&self) -> &[u32] {
        &self.before[GUARD..GUARD + self.count()]
    }

    /// Whether no guard word has changed.
    pub fn is_whole(&self) -> bool {
        let end = GUARD + self.count();
        self.words[..GUARD] == self.before[..GUARD] && self.words[end..] == self.before[end..]
    }
}

// The buffers are valid for their lengths, or null with the length 0, and no
// two of them overlap: that is all the header asks for.

pub fn seal_reply(message: &mut Guarded, word: u32) -> u64 {
    unsafe { declared::mode_s_seal_reply(message.pointer(), message.length(), word) }
}

pub fn seal_interrogation(message: &mut Guarded, address: u32) -> u64 {
    unsafe { declared::mode_s_seal_interrogation(message.pointer(), message.length(), address) }
}

pub fn receive(own: u32, message: &mut Guarded) -> u64 {
    unsafe { declared::mode_s_receive(own, message.pointer(), message.length()) }
}

pub fn correct(message: &mut Guarded, confidence: &mut Guarded, word: u32, limit: u32) -> u64 {
    let (length, marks) = (message.length(), confidence.length());
    unsafe {
        declared::mode_s_correct(
            message.pointer(),
            length,
            confidence.pointer(),
            marks,
            word,
            limit,
        )
    }
}

pub fn remainders(replies: &mut Guarded, words: &mut GuardedWords) -> u64 {
    let (length, count) = (replies.length(), words.count());
    unsafe { declared::mode_s_remainders(replies.pointer(), length, words.pointer(), count) }
}

/// The same on plain slices, for the measurement of speed.
pub fn remainders_of_slices(replies: &[u8], words: &mut [u32]) -> u64 {
    let (length, count) = (replies.len(), words.len());
    unsafe { declared::mode_s_remainders(replies.as_ptr(), length, words.as_mut_ptr(), count) }
}

/// The reply seal on a plain slice.
pub fn seal_slice(message: &mut [u8], word: u32) -> u64 {
    let length = message.len();
    unsafe { declared::mode_s_seal_reply(message.as_mut_ptr(), length, word) }
}

/// The sensor on plain slices.
pub fn correct_slices(message: &mut [u8], confidence: &[u8], word: u32, limit: u32) -> u64 {
    let (length, marks) = (message.len(), confidence.len());
    unsafe {
        declared::mode_s_correct(
            message.as_mut_ptr(),
            length,
            confidence.as_ptr(),
            marks,
            word,
            limit,
        )
    }
}
