//! What an override tree that is empty does.

/// The meaning of an empty override.
#[derive(Clone, Copy, Debug, PartialEq, Eq)]
pub enum Overriding {
    /// "An empty override hands nothing over and the sub-scope uses its own tree."
    FallsBack,
    /// Before request 5: "an empty override ends the caller." Kept to compare with.
    EndsCaller,
}
