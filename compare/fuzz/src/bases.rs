//! Whole texts: of registries in the midst of random scripts.

use std::ops::ControlFlow;

use plain::console::{Console, Lines};
use plain::rng::Rng;

/// The lines of one script. Its registry is opened anew several times.
const LINES: u64 = 3000;

/// One line in so many is followed by a look at the registry.
const LOOKS: u64 = 12;

/// Hands out text after text, until told to break off.
pub fn each(rng: &mut Rng, mut take: impl FnMut(&[u8]) -> ControlFlow<()>) {
    let mut room = vec![0; plain::console::TEXT];
    loop {
        let (mut script, mut answer) = (Vec::new(), Vec::new());
        let seed = rng.below(1 << 32);
        plain::script::write(seed, LINES, &mut script).expect("memory can be written to");
        let mut console = Console::new();
        let mut lines = Lines::new(&script[..]);
        while let Some(line) = lines.next_line().expect("memory can be read") {
            console.answer(line, &mut answer);
            answer.clear();
            if !rng.one_in(LOOKS) {
                continue;
            }
            let length = console.registry().write(&mut room).expect("there is room");
            // Long texts take longer, and are mostly left out.
            if rng.one_in(1 + length as u64 / 4000) && take(&room[..length]).is_break() {
                return;
            }
        }
    }
}
