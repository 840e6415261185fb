//! The second registry: the proved one, through its archive.

use plain::console::TEXT;

/// The words of a registry, as its crate says.
const WORDS: usize = match usize::from_str_radix(env!("WORDS"), 10) {
    Ok(words) => words,
    Err(_) => panic!("no number"),
};

/// A count and up to six numbers.
type Out = [u64; 7];

unsafe extern "C" {
    fn vaskelbi_open(m: *mut u64, domain: u64, first: u64);
    fn vaskelbi_load(m: *mut u64, domain: u64, text: *const u8, length: usize) -> u64;
    fn vaskelbi_rows(m: *const u64) -> u64;
    fn vaskelbi_write_text(m: *const u64, text: *mut u8, length: usize, out: &mut Out) -> u64;
}

pub struct Second {
    words: Vec<u64>,
    /// What a refusal must leave.
    before: Vec<u64>,
    room: Vec<u8>,
}

impl Second {
    pub fn new() -> Self {
        let mut words = vec![0; WORDS];
        unsafe { vaskelbi_open(words.as_mut_ptr(), 0, 0) };
        Self { before: words.clone(), words, room: vec![0; TEXT] }
    }

    /// The status, or what went wrong.
    pub fn load(&mut self, domain: u64, text: &[u8]) -> Result<u64, String> {
        let status =
            unsafe { vaskelbi_load(self.words.as_mut_ptr(), domain, text.as_ptr(), text.len()) };
        if status == 0 {
            self.before.copy_from_slice(&self.words);
        } else if self.words != self.before {
            return Err(format!("the other registry's words changed by refusal {status}"));
        }
        Ok(status)
    }

    pub fn written(&mut self) -> Vec<u8> {
        let mut out = [0; 7];
        let status = unsafe {
            vaskelbi_write_text(self.words.as_ptr(), self.room.as_mut_ptr(), TEXT, &mut out)
        };
        match (status, out) {
            (0, [1, length, ..]) if length <= TEXT as u64 => self.room[..length as usize].to_vec(),
            _ => format!("write_text answers {status} {out:?}").into_bytes(),
        }
    }

    pub fn rows(&self) -> u64 {
        unsafe { vaskelbi_rows(self.words.as_ptr()) }
    }
}
