//! What asking says of a question as a whole.

/// The outcome of a question, the same at every ordinal.
#[derive(Clone, Copy, Debug, PartialEq, Eq)]
pub enum Outcome {
    /// No name server is named for the name or for any of its ancestors.
    NotOurs,
    /// The name belongs to others; the records are their name servers.
    Referral,
    /// The records that were asked for.
    Records,
    /// The name's level has records, but none of the type.
    OtherTypes,
    /// The name has no level.
    Unknown,
}

impl Outcome {
    /// Its number in an answer.
    pub fn number(self) -> u64 {
        match self {
            Outcome::NotOurs => 1,
            Outcome::Referral => 2,
            Outcome::Records => 3,
            Outcome::OtherTypes => 4,
            Outcome::Unknown => 5,
        }
    }
}
