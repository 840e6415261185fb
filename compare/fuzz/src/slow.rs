//! The second registry: what a slow reading says, condition by condition.

use plain::coverage::refusals;
use plain::sheet::Sheet;

pub struct Second {
    sheet: Sheet,
}

impl Second {
    pub fn new() -> Self {
        Self { sheet: Sheet { domain: 0, first: 0, next: 0, plugins: Vec::new() } }
    }

    /// The status, or what went wrong.
    pub fn load(&mut self, domain: u64, text: &[u8]) -> Result<u64, String> {
        if let Some(check) = refusals(domain, text).first() {
            return Ok(u64::from(check.number));
        }
        self.sheet = Sheet::read(text).ok_or("no sheet")?.loaded(domain);
        Ok(0)
    }

    pub fn written(&self) -> Vec<u8> {
        self.sheet.text().into_bytes()
    }

    pub fn rows(&self) -> u64 {
        self.sheet.rows() as u64
    }
}
