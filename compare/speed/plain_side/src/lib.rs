//! The plain side: the registry of `compare/plain` behind the same C signatures as
//! the archive of the proved one. With summaries it is the library `summary_side`.

// Were both libraries built at once, both would have the feature.
const _: () = assert!(
    plain::SUMMARIES == matches!(env!("CARGO_CRATE_NAME").as_bytes(), b"summary_side"),
    "build plain_side and summary_side one by one, as run does"
);

mod border;
mod telling;
