//! The numbers of dm.h as enums.

macro_rules! numbers {
    ($(#[$about:meta])* pub enum $name:ident { $($(#[$doc:meta])* $variant:ident = $number:literal,)* }) => {
        $(#[$about])*
        #[derive(Clone, Copy, Debug, PartialEq, Eq, Hash)]
        #[repr(u32)]
        pub enum $name { $($(#[$doc])* $variant = $number,)* }

        impl $name {
            #[allow(dead_code)]
            pub(crate) fn of(number: u32) -> Option<$name> {
                match number {
                    $($number => Some($name::$variant),)*
                    _ => None,
                }
            }
        }
    };
}

numbers! {
/// The kinds of primitives that are read. The numbers of `Kinds`.
pub enum Kinds {
    /// `addfile`, `rmfile`, `adddir`, `rmdir`, `move` and `hunk`.
    Six = 0,
    /// Those six, `binary`, `replace` and `changepref`.
    All = 1,
}
}

numbers! {
/// What becomes of a bundle with a conflict. The numbers of `Policy`.
pub enum Policy {
    /// It is refused.
    Refuse = 0,
    /// What conflicts is skipped, with what depends on it.
    Skip = 1,
}
}

numbers! {
/// The numbers of `Verdict`.
pub enum Kind {
    /// All new patches were appended.
    Taken = 0,
    /// Some were, others were skipped.
    TakenSome = 1,
    /// The repository has them all.
    NothingNew = 2,
    /// The text is no bundle, or isn't read within these limits.
    Malformed = 3,
    /// The bundle can't be merged.
    Refused = 4,
}
}

numbers! {
/// What is wrong with a text; dm.h says more. The numbers of `FaultKind`.
#[allow(missing_docs)]
pub enum Fault {
    TooLarge = 0,
    NoNewPatches = 1,
    BadInfo = 2,
    Inverted = 3,
    BadDepends = 4,
    BadPatch = 5,
    Unsupported = 6,
    BadPath = 7,
    BadNumber = 8,
    EmptyHunk = 9,
    Unclosed = 10,
    NoContext = 11,
    Doubled = 12,
    TooMany = 13,
    NoMemory = 14,
    BadHex = 15,
    BadPreference = 16,
    BadTokens = 17,
}
}

numbers! {
/// Why a bundle isn't taken; dm.h says more. The numbers of `Refusal`.
#[allow(missing_docs)]
pub enum Refusal {
    MissingContext = 0,
    MissingDependency = 1,
    ContextDepends = 2,
    HeldDepends = 3,
    DoesNotFit = 4,
    Conflicts = 5,
    Full = 6,
    NoMemory = 7,
}
}
