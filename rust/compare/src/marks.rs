//! What is counted of cases aimed at something.

/// What a case had.
#[derive(Clone, Copy, Debug, PartialEq, Eq, PartialOrd, Ord)]
pub enum Mark {
    /// Two sources that a client can't tell apart.
    Pair,
    /// Their records differ.
    RecordsDiffer,
    /// A question put to both.
    TownQuestion,
    /// It is answered with records.
    TownList,
    /// Another town's records have its name, an ancestor or a wildcard of one.
    OtherTownNear,
    /// A question at two moments without a time between them.
    MomentQuestion,
    /// It is answered with records.
    MomentList,
    /// A lifetime differs.
    LifetimeDiffers,
    /// A question to all records and to those that can matter.
    IndexQuestion,
    /// It is answered with records.
    IndexList,
    /// Records were left out.
    LeftOut,
    /// A question to records whose keys are like its name.
    LikeQuestion,
    /// It has the first outcome; the others follow in their order.
    LikeNotOurs,
    /// The second.
    LikeReferral,
    /// The third.
    LikeRecords,
    /// The fourth.
    LikeOtherTypes,
    /// The fifth.
    LikeUnknown,
    /// A key is malformed.
    LikeMalformed,
    /// A key is an end of the name and no ancestor.
    LikeEnd,
    /// A key is as long as the name or an ancestor; the first byte differs.
    FirstByte,
    /// A byte between the first and the last that can differ does.
    MiddleByte,
    /// The last byte before the closing zero differs.
    LastByte,
    /// The byte that differs would be the same if 64 and 91 were lowered.
    BesideLetters,
    /// A key has a byte more than the name or an ancestor.
    ByteLonger,
    /// A key has a byte less.
    ByteShorter,
    /// Asked in upper case, answered with records.
    UpperCase,
    /// The root is asked for.
    RootAsked,
    /// The name has 127 labels.
    ManyLabels,
    /// The name has 255 bytes and few labels.
    LongLabels,
}

/// What is printed of each mark, and its line.
pub const WORDS: [(&str, &str); 29] = [
    ("towns", "pairs of sources"),
    ("towns", "with other records"),
    ("towns", "questions"),
    ("towns", "answered with records"),
    ("towns", "with another town's records at or above the name"),
    ("moments", "questions at two moments"),
    ("moments", "answered with records"),
    ("moments", "with other lifetimes"),
    ("index", "questions to fewer records"),
    ("index", "answered with records"),
    ("index", "with records left out"),
    ("likeness", "questions"),
    ("likeness", "not ours"),
    ("likeness", "referred"),
    ("likeness", "answered with records"),
    ("likeness", "known with other types"),
    ("likeness", "unknown"),
    ("likeness", "with a malformed key"),
    ("likeness", "with a key that is an end and no ancestor"),
    ("likeness", "with a key unlike in the first byte alone"),
    ("likeness", "in one in the middle"),
    ("likeness", "in the last"),
    ("likeness", "as if lowered beside A or Z"),
    ("likeness", "with a key a byte longer"),
    ("likeness", "a byte shorter"),
    ("likeness", "in upper case and answered with records"),
    ("likeness", "for the root"),
    ("likeness", "for 127 labels"),
    ("likeness", "for 255 bytes of long labels"),
];
