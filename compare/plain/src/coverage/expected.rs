//! What a script can reach.

use super::checks::{Check, check};
use super::conditions::{CONDITIONS, DOMAIN, FORM};
use super::forms::EDITIONS;

/// An operation, its kinds of acceptance, and the checks that can refuse it.
pub type Expected = (&'static str, &'static [&'static str], &'static [Check]);

const PLAIN: &[&str] = &[""];
const NONE: &[&str] = &["", "none"];
const YES_NO: &[&str] = &["yes", "no"];
const UNKNOWN: &[Check] = &[check(1, "")];
const LIST: &[Check] = &[check(1, ""), check(23, "past the end"), check(23, "too little room")];
const REALMS: &[Check] = &[
    check(26, "0"),
    check(26, "3"),
    check(26, "above 3"),
    check(4, "odd"),
    check(4, "rows"),
    check(4, "equal keys"),
    check(4, "falling keys"),
];

const SET: [Check; 7] = [
    check(27, ""),
    check(1, ""),
    check(2, ""),
    check(3, "Loading"),
    check(3, "Active"),
    check(3, "Unloading"),
    check(16, ""),
];

/// A set's checks, and then the room: for an order, and where there is none.
const PLAN: [Check; SET.len() + 2] = {
    let mut checks = [check(23, ""); SET.len() + 2];
    let mut n = 0;
    while n < SET.len() {
        checks[n] = SET[n];
        n += 1;
    }
    checks[n] = check(23, "no order");
    checks
};

/// The form, the lines of editions in it, each condition, and the domain.
const LOAD: [Check; EDITIONS.len() + CONDITIONS.len() + 2] = {
    let mut checks = [FORM; EDITIONS.len() + CONDITIONS.len() + 2];
    let (mut n, mut of) = (1, 0);
    while of < EDITIONS.len() {
        checks[n] = EDITIONS[of].0;
        (n, of) = (n + 1, of + 1);
    }
    of = 0;
    while of < CONDITIONS.len() {
        checks[n] = CONDITIONS[of].0;
        (n, of) = (n + 1, of + 1);
    }
    checks[n] = DOMAIN;
    checks
};

/// Refusals whose order must be seen: an operation, the number that it answers, and one
/// that would have come later.
pub const ORDERS: &[(&str, u8, u8)] = &[
    ("register", 26, 4),
    ("register", 26, 5),
    ("register", 26, 1),
    ("register", 26, 10),
    ("register", 4, 5),
    ("resolve", 26, 4),
    ("plan", 2, 3),
    ("plan", 2, 16),
    ("plan", 3, 16),
    ("plan", 27, 23),
    ("plan", 1, 23),
    ("plan", 2, 23),
    ("plan", 3, 23),
    ("plan", 16, 23),
    ("check", 2, 3),
    ("check", 2, 16),
    ("check", 3, 16),
];

/// The same for the ids of a set, where the later check is of a later id: ids are checked
/// one by one, so the number may be one that comes first on a single id.
pub const ID_ORDERS: &[(&str, u8, u8)] = &[
    ("plan", 27, 1),
    ("plan", 1, 27),
    ("plan", 3, 27),
    ("plan", 2, 1),
    ("plan", 3, 2),
    ("plan", 16, 3),
    ("check", 27, 1),
    ("check", 1, 27),
    ("check", 3, 27),
    ("check", 2, 1),
    ("check", 3, 2),
    ("check", 16, 3),
];

/// Every operation with all that it can answer on a registry built from an opening
/// or a load.
pub const EXPECTED: &[Expected] = &[
    ("open", PLAIN, &[]),
    (
        "register",
        &["child, edition 1", "child, edition 2", "no parent, edition 1", "no parent, edition 2"],
        &[
            check(26, "0"),
            check(26, "3"),
            check(26, "above 3"),
            check(4, "odd"),
            check(4, "rows"),
            check(4, "equal keys"),
            check(4, "falling keys"),
            check(5, "dependencies"),
            check(5, "provisions"),
            check(1, ""),
            check(2, ""),
            check(3, ""),
            check(6, ""),
            check(7, "keys"),
            check(7, "anchor"),
            check(8, "provision by provision"),
            check(8, "provision by anchor"),
            check(8, "anchor by provision"),
            check(8, "anchor by anchor"),
            check(9, ""),
            check(10, ""),
            check(11, ""),
            check(12, ""),
        ],
    ),
    ("begin", PLAIN, &[check(1, ""), check(2, ""), check(3, ""), check(16, ""), check(14, "")]),
    (
        "ready",
        PLAIN,
        &[
            check(1, ""),
            check(2, ""),
            check(3, ""),
            check(17, "unissued"),
            check(17, "queued"),
            check(22, ""),
        ],
    ),
    ("fail", PLAIN, &[check(1, ""), check(3, "")]),
    ("unload", PLAIN, &[check(1, ""), check(3, ""), check(15, "provision"), check(15, "anchor")]),
    ("finish", PLAIN, &[check(1, ""), check(3, "")]),
    ("replace", PLAIN, &[check(1, ""), check(16, "")]),
    ("fits", YES_NO, UNKNOWN),
    (
        "admit",
        PLAIN,
        &[
            check(3, "domain"),
            check(3, "kind"),
            check(1, ""),
            check(2, ""),
            check(13, "phase"),
            check(13, "generation"),
            check(3, "queued"),
            check(3, "spent"),
        ],
    ),
    (
        "call",
        PLAIN,
        &[
            check(3, "domain"),
            check(1, ""),
            check(2, ""),
            check(13, "phase"),
            check(13, "unissued"),
            check(13, "spent"),
            check(13, "generation"),
            check(13, "current revision"),
            check(13, "queued revision"),
            check(13, "argument"),
        ],
    ),
    ("retire", PLAIN, &[check(1, ""), check(2, "")]),
    (
        "retire_child",
        &["registered", "removed before"],
        &[
            check(3, "domain"),
            check(1, "below first"),
            check(1, "not below next"),
            check(3, "other parent"),
            check(3, "no parent"),
            check(2, ""),
        ],
    ),
    ("remove", PLAIN, &[check(1, ""), check(3, "phase"), check(3, "not retired"), check(18, "")]),
    ("child", NONE, UNKNOWN),
    (
        "offer",
        PLAIN,
        &[
            check(1, ""),
            check(19, "phase"),
            check(19, "retired"),
            check(20, "anchor"),
            check(20, "other"),
            check(21, ""),
        ],
    ),
    (
        "read",
        PLAIN,
        &[
            check(1, ""),
            check(19, ""),
            check(20, "own provision"),
            check(20, "other"),
            check(22, ""),
        ],
    ),
    ("visible", NONE, &[]),
    ("missing", NONE, UNKNOWN),
    ("matches", YES_NO, UNKNOWN),
    ("declares", YES_NO, UNKNOWN),
    ("lookup", NONE, UNKNOWN),
    (
        "resolve",
        &["edition 1, a row", "edition 1, no row", "edition 2, a row", "edition 2, no row"],
        REALMS,
    ),
    ("edition", &["edition 1", "edition 2"], UNKNOWN),
    ("plan", &["empty set", "", "none"], &PLAN),
    ("check", YES_NO, &SET),
    ("deps", PLAIN, LIST),
    ("provs", PLAIN, LIST),
    ("realms", PLAIN, LIST),
    ("buffer", PLAIN, &[]),
    ("rows", PLAIN, &[]),
    ("count", PLAIN, &[]),
    ("next", PLAIN, &[]),
    ("show", PLAIN, UNKNOWN),
    ("write", PLAIN, &[check(23, "")]),
    ("load", PLAIN, &LOAD),
    ("slot pending", PLAIN, &[]),
    ("slot assigned", PLAIN, &[]),
    (
        "slot assign",
        PLAIN,
        &[check(3, "decided"), check(3, "other domain"), check(3, "other parent")],
    ),
    ("slot reject", PLAIN, &[check(3, "decided")]),
    ("slot cancel", PLAIN, &[check(3, "decided")]),
];
