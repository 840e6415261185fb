//! The line that is named where another console answers otherwise.

use plain::console::{Console, Lines};
use plain::difference::{Difference, first};

const SCRIPT: &str = "# a remark\nopen 7 0\n\nwrite 100\nregister none 9 0 40 1 0 realms 2 5 deps provs 2\nwrite 1000\nnext\nshow 3\n";

fn answers(script: &str) -> String {
    let mut console = Console::new();
    let mut lines = Lines::new(script.as_bytes());
    let mut out = Vec::new();
    while let Some(line) = lines.next_line().unwrap() {
        console.answer(line, &mut out);
    }
    String::from_utf8(out).unwrap()
}

fn found(other: &str) -> Option<Difference> {
    first(SCRIPT.as_bytes(), other.as_bytes()).unwrap()
}

#[test]
fn equal_answers() {
    assert_eq!(found(&answers(SCRIPT)), None);
}

#[test]
fn the_line_behind_texts_is_the_right_one() {
    for (from, to, shown) in [
        (
            "ok 0\n",
            "ok 1\n",
            "line 5: register none 9 0 40 1 0 realms 2 5 deps provs 2\nplain: ok 0\\n\nours:  ok 1\\n",
        ),
        (
            "phase=0\n",
            "phase=2\n",
            "line 6: write 1000\nin line 8 of its answer\nplain: phase=0\\n\nours:  phase=2\\n",
        ),
        (
            "prov=2,5,none\n",
            "prov=2,5,77\n",
            "line 6: write 1000\nin line 22 of its answer\nplain: prov=2,5,none\\n\nours:  prov=2,5,77\\n",
        ),
        (
            "prov=2,5,none\n",
            "",
            "line 6: write 1000\nin line 22 of its answer\nplain: prov=2,5,none\\n\nours:  ok 1\\n",
        ),
        ("ok 1\nno 1", "no 1\nno 1", "line 7: next\nplain: ok 1\\n\nours:  no 1\\n"),
        ("no 1\n", "no 12\n", "line 8: show 3\nplain: no 1\\n\nours:  no 12\\n"),
        ("no 1\n", "no 1", "line 8: show 3\nplain: no 1\\n\nours:  no 1"),
        ("no 1\n", "", "line 8: show 3\nplain: no 1\\n\nours:  nothing"),
        ("no 1\n", "no 1\nok\n", "behind the last line, 8\nplain: nothing\nours:  ok\\n"),
    ] {
        let right = answers(SCRIPT);
        let place = right.rfind(from).unwrap();
        let wrong = format!("{}{to}{}", &right[..place], &right[place + from.len()..]);
        assert_eq!(found(&wrong).unwrap().to_string(), shown);
    }
}

/// Lines of texts count as lines of the file, and are not answered.
#[test]
fn the_line_behind_a_text_that_was_loaded() {
    let text = "domain=7\nfirst=0\nnext=3\nplugins=0\n";
    let script = format!("load 8 {}\n{text}next\nload 8 2\n\n\nrows\n", text.len());
    let script = format!("{script}load 1 131073\n{}\ncount", "\n".repeat(131_072));
    let right = "ok\nok 3\nno 24\nok 0\nbad\nok 0\n";
    assert_eq!(answers(&script), right);
    let found = |other: &str| first(script.as_bytes(), other.as_bytes()).unwrap();
    assert_eq!(found(right), None);
    for (wrong, shown) in [
        (
            "no 24\nok 3\nno 24\nok 0\nbad\nok 0\n",
            "line 1: load 8 34\nplain: ok\\n\nours:  no 24\\n",
        ),
        ("ok\nok 2\nno 24\nok 0\nbad\nok 0\n", "line 6: next\nplain: ok 3\\n\nours:  ok 2\\n"),
        ("ok\nok 3\nno 24\nok 1\nbad\nok 0\n", "line 10: rows\nplain: ok 0\\n\nours:  ok 1\\n"),
        (
            "ok\nok 3\nno 24\nok 0\nbad\nok 1\n",
            "line 131085: count\nplain: ok 0\\n\nours:  ok 1\\n",
        ),
    ] {
        assert_eq!(found(wrong).unwrap().to_string(), shown);
    }
}
