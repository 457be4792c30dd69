//! Stand-in for the runtime's clock module: `time.rs` names one error of it, nothing here gives it.

#[derive(Debug)]
pub(crate) enum PhysicalClockError {
    Overflow,
}
