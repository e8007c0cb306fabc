//! The refusal numbers 1 to 18.

/// Why a service refuses. The discriminant is the paper's number.
#[derive(Clone, Copy, Debug, PartialEq, Eq)]
#[repr(u8)]
pub enum Refusal {
    Truncated = 1,
    UnknownKind,
    OutOfOrder,
    LimitExceeded,
    InvalidByte,
    DanglingReference,
    SharedNode,
    TypeMismatch,
    MixedClauses,
    ScopeCycle,
    WeightExceeded,
    DependencyCycle,
    NoSuchScope,
    BadInput,
    BufferTooSmall,
    BadCode,
    Stuck,
    BadChoice,
}

impl From<Refusal> for u8 {
    fn from(refusal: Refusal) -> u8 {
        refusal as u8
    }
}
