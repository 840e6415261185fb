//! One text after the other, loaded on both sides.

use std::fmt;
use std::fs;
use std::path::Path;

use plain::console::TEXT;
use plain::{Refusal, Registry};

use crate::second::Second;

/// Both registries, which hold the same.
pub struct Compare {
    plain: Box<Registry>,
    second: Second,
    /// What both tell, as the plain one writes it.
    told: Vec<u8>,
    room: Vec<u8>,
}

/// A text on which the registries differ.
pub struct Difference {
    kind: &'static str,
    domain: u64,
    text: Vec<u8>,
    what: String,
}

impl Compare {
    pub fn new() -> Self {
        let mut compare = Self {
            plain: Box::new(Registry::open(0, 0)),
            second: Second::new(),
            told: Vec::new(),
            room: vec![0; TEXT],
        };
        compare.told = compare.written();
        compare
    }

    /// What the plain registry tells now.
    fn written(&mut self) -> Vec<u8> {
        let length = self.plain.write(&mut self.room).expect("there is room");
        self.room[..length].to_vec()
    }

    /// Loads a text on both sides; answers the status that both answer.
    pub fn load(&mut self, domain: u64, text: &[u8]) -> Result<u64, Difference> {
        let loaded = self.plain.load(domain, text);
        let plain = loaded.map_or_else(|refusal: Refusal| u64::from(refusal.number()), |()| 0);
        let second = self.second.load(domain, text);
        let differ = |what: String| Err(Difference { kind: "", domain, text: text.to_vec(), what });
        match second {
            Err(what) => return differ(what),
            Ok(second) if second != plain => {
                return differ(format!("plain answers {plain}, and the other {second}"));
            }
            Ok(_) => {}
        }
        let told = self.written();
        if plain != 0 {
            if told != self.told {
                return differ("the plain registry changed by a refusal".to_string());
            }
            return Ok(plain);
        }
        let other = self.second.written();
        if other != told {
            return differ(format!(
                "loaded by both, and told otherwise: plain\n{}and the other\n{}",
                told.escape_ascii(),
                other.escape_ascii()
            ));
        }
        let (rows, others) = (self.plain.rows(), self.second.rows());
        if rows != others {
            return differ(format!("plain has {rows} rows in use, and the other {others}"));
        }
        self.told = told;
        Ok(0)
    }
}

impl Difference {
    pub fn of(self, kind: &'static str) -> Self {
        Self { kind, ..self }
    }

    /// The text as a script for a console.
    fn script(&self) -> Vec<u8> {
        let line = format!("load {} {}\n", self.domain, self.text.len());
        [line.as_bytes(), &self.text, format!("write {TEXT}\n").as_bytes()].concat()
    }
}

/// Shows the text, and keeps it as a script too: there may be any byte in it.
impl fmt::Display for Difference {
    fn fmt(&self, f: &mut fmt::Formatter<'_>) -> fmt::Result {
        writeln!(f, "a text ({}) loaded into domain {}: {}", self.kind, self.domain, self.what)?;
        for line in self.text.split_inclusive(|&byte| byte == b'\n') {
            writeln!(f, "    {}", line.escape_ascii())?;
        }
        let path = Path::new(env!("CARGO_MANIFEST_DIR")).join("target/difference.txt");
        match fs::write(&path, self.script()) {
            Ok(()) => write!(f, "It is kept as a script in {}", path.display()),
            Err(why) => write!(f, "It can't be kept in {}: {why}", path.display()),
        }
    }
}
