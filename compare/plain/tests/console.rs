//! The console's example, and its lines that are bad or only look so.

use plain::console::{Console, Lines, TEXT};

/// All that a fresh console answers to a script.
fn said(script: &[u8]) -> String {
    let mut console = Console::new();
    let mut lines = Lines::new(script);
    let mut out = Vec::new();
    while let Some(line) = lines.next_line().unwrap() {
        console.answer(line, &mut out);
    }
    String::from_utf8(out).unwrap()
}

fn answers(script: &[u8]) -> Vec<String> {
    said(script).lines().map(str::to_string).collect()
}

/// Asks one line of a fresh console.
fn answer(line: impl AsRef<[u8]>) -> Vec<String> {
    answers(line.as_ref())
}

#[test]
fn the_example() {
    let example = [
        ("open 7 0", "ok"),
        ("register none 9 0 40 1 0 realms 2 5 deps provs 2", "ok 0"),
        ("begin 0", "ok 7 0 1 1"),
        ("admit 7 0 1 1 5", "ok 7 0 1 0 5"),
        ("replace 0 40", "ok 40"),
        ("call 7 0 1 0 5", "no 13"),
        ("fail 0", "ok"),
        ("finish 0", "ok"),
        ("begin 0", "ok 7 0 2 1"),
        ("admit 7 0 2 1 5", "ok 7 0 2 1 5"),
        ("call 7 0 2 1 5", "ok 7 0 2 0 40 5"),
        ("call 7 0 2 1 5", "no 13"),
    ];
    let script: String = example.iter().map(|(line, _)| format!("{line}\n")).collect();
    let wanted: Vec<&str> = example.iter().map(|(_, answer)| *answer).collect();
    assert_eq!(answers(script.as_bytes()), wanted);
}

#[test]
fn every_form_of_answer() {
    let example = [
        ("next", "ok 0"),
        ("register none 9 0 40 1 0 realms 2 5 deps provs 2", "ok 0"),
        ("register 0 3 1 41 1 6 realms deps 2 provs", "ok 1"),
        ("show 0", "ok none 0 0 0 0 40 0 none 9 0"),
        ("show 1", "ok 0 0 0 0 0 41 0 none 3 1"),
        ("show 2", "no 1"),
        ("child 0", "ok none"),
        ("child 1", "ok 0 0 1"),
        ("replace 2 77", "no 1 77"),
        ("replace 0 41", "ok 40"),
        ("fits 0 18446744073709551615", "ok no"),
        ("fits 0 18446744073709551614", "ok yes"),
        ("begin 0", "ok 0 0 1 1"),
        ("admit 0 0 1 1 6", "ok 0 0 1 1 6"),
        ("show 0", "ok none 1 0 1 1 41 1 1 6 9 0"),
        ("ready 0", "no 17"),
        ("call 0 0 1 1 6", "ok 0 0 1 0 41 6"),
        ("show 0", "ok none 1 0 1 1 41 2 none 9 0"),
        ("missing 0", "ok 2 5"),
        ("visible 2 5", "ok none"),
        ("offer 0 2 5 8", "ok"),
        ("missing 0", "ok none"),
        ("ready 0", "ok"),
        ("visible 2 5", "ok 8"),
        ("matches 0 2 5", "ok yes"),
        ("matches 0 2", "ok no"),
        ("declares 1 2 0", "ok no"),
        ("lookup 1 2", "ok 2 0"),
        ("lookup 1 3", "ok none"),
        ("resolve 2 1 0 2 5", "ok 2 5"),
        ("resolve 2 1 0 2", "no 4"),
        ("resolve 3 1 7 2 5", "ok 3 0"),
        ("resolve 3 2 7 2 5", "ok 3 7"),
        ("resolve 2 2 7 2 5", "ok 2 5"),
        ("resolve 2 2 7", "ok 2 7"),
        ("resolve 2 3 7", "no 26"),
        ("resolve 2 0 0 2", "no 26"),
        ("edition 0", "ok 1 0"),
        ("edition 1", "ok 1 0"),
        ("edition 2", "no 1"),
        ("plan 0", "ok"),
        ("plan 18446744073709551615", "ok"),
        ("plan 0 1", "no 23"),
        ("plan 1 1", "ok none"),
        ("plan 0 0", "no 3"),
        ("plan 0 2", "no 1"),
        ("plan 0 1 1", "no 27"),
        ("check set order", "ok yes"),
        ("check set order 1", "ok no"),
        ("check set 1 order 1", "ok no"),
        ("check set 1 order", "ok no"),
        ("check set 1 1 order", "no 27"),
        ("check set 2 2 order 2", "no 1"),
        ("check set 0 order 0", "no 3"),
        ("realms 0 97", "ok 1"),
        ("buffer 96 99", "ok 0 2 5"),
        ("buffer 98 18446744073709551615", "ok 5 0"),
        ("buffer 3 3", "ok"),
        ("buffer 200 300", "ok"),
        ("provs 0 99", "no 23"),
        ("rows", "ok 4"),
        ("count", "ok 2"),
        ("slot assign 0 0 4", "ok 0 0 0 assigned 0 0 4"),
        ("slot reject", "no 3"),
        ("slot assigned 1 2 3", "ok 1 2 none assigned 1 2 3"),
        ("slot pending 1 2 3", "ok 1 2 3 pending"),
        ("slot cancel", "ok 1 2 3 cancelled"),
        ("open 1 5", "ok"),
        ("next", "ok 5"),
        ("slot cancel", "no 3"),
        ("buffer 97 99", "ok 2 5"),
        ("slot pending 1 2 3", "ok 1 2 3 pending"),
        ("slot reject", "ok 1 2 3 failed"),
    ];
    let script: String = example.iter().map(|(line, _)| format!("{line}\n")).collect();
    for ((line, wanted), answer) in example.iter().zip(answers(script.as_bytes())) {
        assert_eq!(&answer, wanted, "{line}");
    }
}

#[test]
fn lines_passed_over() {
    for line in ["", "\n", "\n\n", "#", "#rows\n", "# a remark"] {
        assert!(answer(line).is_empty(), "{line:?}");
    }
    assert!(answer(format!("#{}\n", "x".repeat(100_000))).is_empty());
}

#[test]
fn the_last_line_may_lack_byte_10() {
    assert_eq!(answer("rows\nnext"), ["ok 0", "ok 0"]);
    assert_eq!(answer("rows\nnext\n"), ["ok 0", "ok 0"]);
}

#[test]
fn spaces_part_words_and_nothing_else_does() {
    for line in ["  rows", "rows  ", " begin   3 "] {
        assert_ne!(answer(line), ["bad"], "{line:?}");
    }
    for line in [" ", "   ", "rows\t", "begin\t3", "rows\r\n", "\r\n", " # x", "\t", "rows\0"] {
        assert_eq!(answer(line), ["bad"], "{line:?}");
    }
    assert_eq!(answer(b"rows \xff"), ["bad"]);
}

#[test]
fn bad_lines() {
    for line in [
        "begin",
        "begin 1 2",
        "begin none",
        "begin 00",
        "begin 01",
        "begin +1",
        "begin -1",
        "begin 18446744073709551616",
        "rows 1",
        "Rows",
        "slot",
        "slot open",
        "slot reject 1",
        "register none 1 0 5 1 0",
        "register none 1 0 5 1 0 realms deps",
        "register none 1 0 5 1 0 deps realms provs",
        "register none 1 0 5 1 0 realms deps provs x",
        "register no 1 0 5 1 0 realms deps provs",
        "register none 1 0 5 realms deps provs",
        "register none 1 0 5 1 realms deps provs",
        "register none 1 0 5 1 0 0 realms deps provs",
        "register none 1 0 5 none 0 realms deps provs",
        "register none 1 0 5 1 none realms deps provs",
        "matches",
        "resolve",
        "resolve 2",
        "resolve 2 1",
        "resolve 2 none 0",
        "resolve 2 1 none",
        "resolve 2 1 0 x",
        "edition",
        "edition none",
        "edition 0 0",
        "plan",
        "plan none",
        "plan 00",
        "plan 1 none",
        "plan 1 01",
        "plan 18446744073709551616",
        "Plan 1",
        "plans 1",
        "check",
        "check set",
        "check set 1",
        "check order",
        "check order set",
        "check 1 order 1",
        "check sets order",
        "check set orders",
        "check set order order",
        "check set set order",
        "check set 1 order 1 set",
        "check set 1 order none",
        "check set none order",
        "Check set order",
        "checks set order",
        "write",
        "write none",
        "write 01",
        "write 1 2",
        "write 18446744073709551616",
        "Write 0",
        "load",
        "load 8",
        "load none 0",
        "load 8 00",
        "load 8 0 0",
        "load 8 131073",
        "load 8 18446744073709551615",
        "load 8 18446744073709551616",
    ] {
        assert_eq!(answer(line), ["bad"], "{line}");
    }
    assert_eq!(answer("begin 0"), ["no 1"]);
    assert_eq!(answer("begin 18446744073709551615"), ["no 1"]);
}

#[test]
fn a_line_has_4096_bytes_at_most() {
    for end in ["", "\n", "\nnext\n"] {
        let line = |length: usize| format!("rows{}{end}", " ".repeat(length - 4));
        assert_eq!(answer(line(4096))[0], "ok 0");
        assert_eq!(answer(line(4097))[0], "bad");
        assert_eq!(answer(line(4098))[0], "bad");
        assert_eq!(answer(line(1_000_000))[0], "bad");
        assert_eq!(answer(line(4097)).len(), if end.len() > 1 { 2 } else { 1 });
    }
    assert_eq!(answer(format!(" #{}", "x".repeat(5000))), ["bad"]);
}

/// Two that need nobody, and one that needs both.
#[test]
fn orders() {
    let start = "register none 1 0 0 1 0 realms deps 2 3 provs\nregister none 2 0 0 1 0 realms deps provs\nregister none 3 0 0 1 0 realms deps provs\n";
    for (line, wanted) in [
        ("plan 3 0 1 2", "ok 1 2 0"),
        ("plan 3 2 1 0", "ok 1 2 0"),
        ("plan 32 2 0 1", "ok 1 2 0"),
        ("plan 33 2 0 1", "ok 1 2 0"),
        ("plan 18446744073709551615 2 0 1", "ok 1 2 0"),
        ("plan 2 0 1 2", "no 23"),
        ("plan 2 2 1", "ok 1 2"),
        ("plan 2 0 1", "ok none"),
        ("plan 1 0 1", "no 23"),
        ("plan 0 0 1 1", "no 27"),
        ("check set 0 1 2 order 1 2 0", "ok yes"),
        ("check set 0 1 2 order 2 1 0", "ok yes"),
        ("  check  set 0   1 2 order  2 1 0  ", "ok yes"),
        ("check set 0 1 2 order 1 0 2", "ok no"),
        ("check set 0 1 order 1 2 0", "ok no"),
        ("check set 0 1 2 order 1 2 0 0", "ok no"),
        ("check set 1 order 18446744073709551615", "ok no"),
        ("check set 1 3 order 1 3", "no 1"),
    ] {
        let answers = answers(format!("{start}{line}\nrows\n").as_bytes());
        assert_eq!(answers[3..], [wanted, "ok 5"], "{line}");
    }
}

/// As many ids as a line can have.
#[test]
fn long_sets_and_orders() {
    let start = "register none 1 0 0 1 0 realms deps provs\n";
    let ids = |count: usize| " 0".repeat(count);
    for (line, wanted) in [
        (format!("plan 9{}", ids(2045)), "no 27"),
        (format!("plan 9{}", ids(2046)), "bad"),
        (format!("check set{} order", ids(2040)), "no 27"),
        (format!("check set 0 order{}", ids(2039)), "ok no"),
        (format!("check set 0 order{}", ids(2040)), "bad"),
    ] {
        let answers = answers(format!("{start}{line}\n").as_bytes());
        assert_eq!(answers[1..], [wanted], "{} bytes", line.len());
    }
}

const EXAMPLE: &str = "domain=7\nfirst=0\nnext=1\nplugins=1\nid=0\nparent=none\nphase=0\nretired=0\ngeneration=0\nrevision=0\npayload=40\nroot=0\nqueued=none\nanchor=9,0\nedition=1\ndefault=0\nrealms=1\nrealm=2,5\ndeps=0\nprovs=1\nprov=2,5,none\n";

/// The bytes that are answered, not only their lines.
#[test]
fn a_text_is_answered_as_it_is() {
    let start = "open 7 0\nregister none 9 0 40 1 0 realms 2 5 deps provs 2\n";
    let length = EXAMPLE.len();
    for (size, wanted) in [
        ("0".to_string(), "no 23\n".to_string()),
        ((length - 1).to_string(), "no 23\n".to_string()),
        (length.to_string(), format!("ok {length}\n{EXAMPLE}")),
        ((length + 1).to_string(), format!("ok {length}\n{EXAMPLE}")),
        (TEXT.to_string(), format!("ok {length}\n{EXAMPLE}")),
        ((TEXT + 1).to_string(), format!("ok {length}\n{EXAMPLE}")),
        (u64::MAX.to_string(), format!("ok {length}\n{EXAMPLE}")),
    ] {
        let script = format!("{start}write {size}\nnext");
        let said = said(script.as_bytes());
        assert_eq!(said, format!("ok\nok 0\n{wanted}ok 1\n"), "{size}");
    }
    assert_eq!(said(b"write 33"), "no 23\n");
    assert_eq!(said(b"write 34"), "ok 34\ndomain=0\nfirst=0\nnext=0\nplugins=0\n");
}

#[test]
fn a_text_is_no_lines() {
    let length = EXAMPLE.len();
    let written = format!("ok {length}\n{}", EXAMPLE.replace("domain=7", "domain=8"));
    for (script, wanted) in [
        (format!("load 8 {length}\n{EXAMPLE}next\n"), "ok\nok 1\n".to_string()),
        (format!("load 8 {length}\n{EXAMPLE}write 999"), format!("ok\n{written}")),
        (format!("  load  8   {length} \n{EXAMPLE}next"), "ok\nok 1\n".to_string()),
        (format!("load 7 {length}\n{EXAMPLE}next\n"), "no 25\nok 0\n".to_string()),
        // What stands right behind the text is the next line, also without a byte 10 before.
        (format!("load 8 {}\n{EXAMPLE}\n\nnext\n", length + 1), "no 24\nok 0\n".to_string()),
        (format!("load 8 {}\n{EXAMPLE}next\n", length - 1), "no 24\nok 0\n".to_string()),
        ("load 8 3\nabcnext\nrows".to_string(), "no 24\nok 0\nok 0\n".to_string()),
        ("load 8 0\nnext\n".to_string(), "no 24\nok 0\n".to_string()),
        // No limit of a line holds, and no line within is answered or passed over.
        (
            format!("load 8 9000\n{}next\n", "next\n#\n\n ".repeat(1000)),
            "no 24\nok 0\n".to_string(),
        ),
        ("load 8 5\nload 8next\n".to_string(), "no 24\nbad\n".to_string()),
    ] {
        assert_eq!(said(script.as_bytes()), wanted, "{script}");
    }
}

#[test]
fn a_text_that_ends_early_is_what_there_is() {
    let length = EXAMPLE.len();
    for longer in [length + 1, length + 1000, TEXT] {
        let script = format!("load 8 {longer}\n{EXAMPLE}");
        assert_eq!(said(script.as_bytes()), "ok\n");
        let script = format!("load 7 {longer}\n{EXAMPLE}");
        assert_eq!(said(script.as_bytes()), "no 25\n");
        let script = format!("load 8 {longer}\n{}", &EXAMPLE[..length - 1]);
        assert_eq!(said(script.as_bytes()), "no 24\n");
    }
    for script in ["load 8 1", "load 8 1\n", "load 8 0", "load 8 131072\n"] {
        assert_eq!(said(script.as_bytes()), "no 24\n", "{script:?}");
    }
}

#[test]
fn a_text_of_131_072_bytes_and_one_more() {
    // The longest text that can be loaded has no form, and its bytes would be lines.
    let text = |length: usize| "next\n".repeat(length.div_ceil(5))[..length].to_string();
    for (length, wanted) in [(TEXT, "no 24\nok 0\n"), (TEXT + 1, "bad\nok 0\n")] {
        let script = format!("load 8 {length}\n{}rows\n", text(length));
        assert_eq!(said(script.as_bytes()), wanted, "{length}");
    }
    let long = format!("load 8 {}\n{}rows\n", 10 * TEXT, text(10 * TEXT));
    assert_eq!(said(long.as_bytes()), "bad\nok 0\n");
    // What is passed over may end early, too.
    for length in [u64::MAX, TEXT as u64 + 1] {
        assert_eq!(said(format!("load 8 {length}\nrows\nnext\n").as_bytes()), "bad\n");
        assert_eq!(said(format!("load 8 {length}").as_bytes()), "bad\n");
    }
}

#[test]
fn a_line_that_is_bad_for_another_reason_has_no_text() {
    for line in ["load 8", "load 8 5 5", "load x 5", "load 8 05", "Load 8 5", "loads 8 5"] {
        assert_eq!(answers(format!("{line}\nnext\n").as_bytes()), ["bad", "ok 0"], "{line}");
    }
    let line = |length: usize| format!("load 8 5{}", " ".repeat(length - 8));
    assert_eq!(answers(format!("{}\nnext\nrows\n", line(4096)).as_bytes()), ["no 24", "ok 0"]);
    let long = format!("{}\nnext\nrows\n", line(4097));
    assert_eq!(answers(long.as_bytes()), ["bad", "ok 0", "ok 0"]);
    // A remark is no line with a text.
    assert_eq!(answers(b"#load 8 5\nnext\n"), ["ok 0"]);
}
