//! Supervisors that are wrong on purpose, which the tests must find: in builds with the feature `wrong`, the variable
//! HIDEWILLOW_RUN_WRONG names one. Other builds have none of it.

pub const OUTPUT_AT_ONCE: &str = "output-at-once";
pub const LATE_CHECKPOINT: &str = "late-checkpoint";
pub const UNDO_MISSED: &str = "undo-missed";
pub const PIPE_EMPTY: &str = "pipe-empty";
pub const OFFSETS: &str = "offsets";
pub const PREDICTED: &str = "predicted";
pub const WRITE_EARLY: &str = "write-early";
pub const BIRTHS_FORGOTTEN: &str = "births-forgotten";
pub const SIGNAL_IN_FORK: &str = "signal-in-fork";

#[cfg(feature = "wrong")]
pub fn is(what: &str) -> bool {
    std::env::var_os("HIDEWILLOW_RUN_WRONG").is_some_and(|w| w == what)
}

#[cfg(not(feature = "wrong"))]
#[inline(always)]
pub fn is(_: &str) -> bool {
    false
}
