//! Texts read back: whole, damaged, of another time, and of a wrong length.

use super::{Script, keep};
use crate::console::TEXT;
use crate::damage::{BYTES, EDITIONS, Kind, RECORDS, ROWS};
use crate::sheet::Sheet;

/// Bytes that would be answered if they were read as lines.
const LINES: &[u8] = b"next\nrows\n";

/// So many of them.
pub(super) fn filler(length: usize) -> Vec<u8> {
    LINES.iter().copied().cycle().take(length).collect()
}

impl Script {
    /// Loads a text. Then the script goes on with what was loaded, if it was.
    pub(super) fn carry(&mut self) {
        match self.rng.below(40) {
            0..=2 => self.carry_there_and_back(),
            3 => self.carry_parted(),
            4 => self.carry_long(),
            5..=7 => self.carry_full(),
            8 | 9 => self.carry_worn(),
            _ => {
                let mut text = self.base();
                self.damage(&mut text);
                let domain = self.domain_for(&text);
                self.load_text(domain, &text);
            }
        }
    }

    /// Loads a text as it is, and keeps what may be needed again.
    fn load_text(&mut self, domain: u64, text: &[u8]) -> bool {
        let former = self.registry().domain();
        let line = format!("load {domain} {}", text.len());
        let accepted = self.say_with(line.as_bytes(), text);
        if accepted {
            keep(&mut self.domains, former);
        }
        accepted
    }

    /// The text of the registry as it is.
    fn present(&self) -> Vec<u8> {
        let mut text = vec![0; self.registry().text_length()];
        self.registry().write(&mut text).expect("there is room");
        text
    }

    /// A whole text: of now, or of another time. Long ones are rare.
    fn base(&mut self) -> Vec<u8> {
        let length = self.registry().text_length() as u64;
        let long = length > 3000 && !self.rng.one_in(1 + length / 1500);
        let kept = self.rng.below(self.texts.len() as u64) as usize;
        if (long || self.rng.one_in(3))
            && let Some(text) = self.texts.get(kept)
        {
            return text.clone();
        }
        let text = self.present();
        if !long && self.rng.one_in(3) {
            keep(&mut self.texts, text.clone());
        }
        text
    }

    /// Leaves a text whole, or damages it in one way, rarely in two.
    fn damage(&mut self, text: &mut Vec<u8>) {
        let kinds: &[&[Kind]] = match self.rng.below(26) {
            0..=6 => &[],
            7..=18 => &[RECORDS],
            19 => &[RECORDS, RECORDS],
            20 => &[RECORDS, BYTES],
            21 | 22 => &[EDITIONS],
            _ => &[BYTES],
        };
        for kinds in kinds {
            // Not every text has something of every kind.
            for _ in 0..20 {
                let kind = &kinds[self.rng.below(kinds.len() as u64) as usize];
                let mut damaged = text.clone();
                if kind.damage(&mut damaged, &mut self.rng).is_some() {
                    *text = damaged;
                    break;
                }
            }
        }
    }

    /// The domain that a text tells, if it does.
    fn told_domain(text: &[u8]) -> Option<u64> {
        let line = text.split(|&byte| byte == b'\n').next()?;
        str::from_utf8(line.strip_prefix(b"domain=")?).ok()?.parse().ok()
    }

    /// Mostly another domain than the text's, often one that was there before.
    fn domain_for(&mut self, text: &[u8]) -> u64 {
        let told = Self::told_domain(text).unwrap_or(7);
        let former: Vec<u64> = self.domains.iter().copied().collect();
        match self.rng.below(8) {
            0 => told,
            1 => told.wrapping_add(1),
            2 => self.rng.number(),
            _ => self.rng.pick(&former).unwrap_or(told ^ 1),
        }
    }

    /// Loads the registry of now into another domain and back, and tries what was
    /// given out before.
    fn carry_there_and_back(&mut self) {
        let here = self.registry().domain();
        let there = self.rng.nudge(here);
        let text = self.present();
        if text.len() > 6000 || !self.load_text(there, &text) {
            return;
        }
        self.replay();
        let text = self.present();
        self.load_text(here, &text);
        self.replay();
        self.replay();
    }

    /// Names fewer bytes than the text has, or none at all: the rest are lines.
    fn carry_parted(&mut self) {
        let text = self.base();
        if text.len() > 1500 {
            return self.carry();
        }
        let domain = self.domain_for(&text);
        let length = self.rng.below(text.len() as u64) as usize;
        let rest = if self.rng.one_in(2) {
            let line = format!("load {domain} {length}");
            self.say_with(line.as_bytes(), &text[..length]);
            &text[length..]
        } else {
            let bad = self.rng.one_of(["load", "load 0", "load 0 1 2", "load 00 9", "load x 9"]);
            self.say(bad);
            &text[..]
        };
        for line in rest.split(|&byte| byte == b'\n') {
            self.say(line);
        }
    }

    /// Texts about as long as they may be. None of them is one.
    fn carry_long(&mut self) {
        if !self.rng.one_in(6) {
            return self.carry();
        }
        let length = self.rng.one_of([TEXT - 1, TEXT, TEXT, TEXT + 1, TEXT + 1, TEXT + 4000]);
        let mut text = self.present();
        let more = filler(length.saturating_sub(text.len()));
        text.extend(more);
        let domain = self.domain_for(&text);
        self.load_text(domain, &text);
    }

    /// As many rows as there can be, and one more.
    fn carry_full(&mut self) {
        let mut text = self.present();
        if ROWS.damage(&mut text, &mut self.rng).is_none() {
            return self.carry();
        }
        let domain = self.domain_for(&text);
        self.load_text(domain, &text);
    }

    /// Loads the registry of now with some generations at their end, or nearly.
    fn carry_worn(&mut self) {
        let text = self.present();
        let Some(mut sheet) = Sheet::read(&text).filter(|_| text.len() <= 6000) else {
            return self.carry();
        };
        for plugin in &mut sheet.plugins {
            if self.rng.one_in(3) {
                plugin.generation = u64::MAX - self.rng.one_of([0, 0, 1]);
            }
        }
        let text = sheet.text();
        let domain = self.domain_for(text.as_bytes());
        if self.load_text(domain, text.as_bytes()) {
            self.order_worn();
        }
    }

    /// The script's last line: its text ends before it should, or never came.
    pub(super) fn carry_cut(&mut self) {
        let text = self.present();
        let domain = self.domain_for(&text);
        let longer = text.len() as u64 + self.rng.between(1, 2000);
        let far = self.rng.one_of([TEXT as u64, TEXT as u64 + 1, u64::MAX]);
        let (length, end) = match self.rng.below(6) {
            0 => (far, text.len()),
            1 => (text.len() as u64, 0),
            2 | 3 => (text.len() as u64, self.rng.below(text.len() as u64) as usize),
            // The text is whole, only shorter than it was said.
            _ => (longer, text.len()),
        };
        self.say_with(format!("load {domain} {length}").as_bytes(), &text[..end]);
    }
}
