//! What became of a text.

use crate::ffi::{self, dm_verdict};
use crate::{Error, Fault, Given, Kind, Refusal};
use std::fmt;

/// What became of a text. Places count from 0.
#[derive(Clone, Copy, Debug, PartialEq, Eq)]
pub enum Verdict {
    /// So many patches were appended, which is all that weren't held.
    Taken(usize),
    /// Some patches were appended, and others skipped.
    TakenSome {
        /// So many were appended.
        taken: usize,
        /// So many were skipped.
        skipped: usize,
    },
    /// The repository has all patches of the bundle.
    NothingNew,
    /// The text is no bundle, or isn't read within these limits.
    Malformed {
        /// What is wrong.
        fault: Fault,
        /// At which byte.
        at: usize,
    },
    /// The bundle can't be merged.
    Refused {
        /// Why.
        refusal: Refusal,
        /// The places in the order in which the line has them.
        place: usize,
        /// The second.
        other: usize,
    },
}

impl Verdict {
    /// Whether the repository has all of the bundle's patches now.
    pub fn is_accepted(&self) -> bool {
        matches!(self, Verdict::Taken(_) | Verdict::NothingNew)
    }

    /// The line that `dm` prints, with its newline.
    pub fn line(&self) -> Result<Vec<u8>, Error> {
        let plain = self.plain();
        // SAFETY: both pointers are of variables or of the room of `by`.
        Given::by(64, |out, cap, needed| unsafe { ffi::dm_verdict_line(&plain, out, cap, needed) })?.ok()
    }

    pub(crate) fn of(it: dm_verdict) -> Result<Verdict, Error> {
        let unknown = Error::Unknown(ffi::DM_NO);
        Ok(match Kind::of(it.kind).ok_or(unknown)? {
            Kind::Taken => Verdict::Taken(it.taken),
            Kind::TakenSome => Verdict::TakenSome { taken: it.taken, skipped: it.skipped },
            Kind::NothingNew => Verdict::NothingNew,
            Kind::Malformed => Verdict::Malformed { fault: Fault::of(it.why).ok_or(unknown)?, at: it.at },
            Kind::Refused => Verdict::Refused { refusal: Refusal::of(it.why).ok_or(unknown)?, place: it.place, other: it.other },
        })
    }

    pub(crate) fn plain(&self) -> dm_verdict {
        let none = dm_verdict::default();
        match *self {
            Verdict::Taken(taken) => dm_verdict { kind: Kind::Taken as u32, taken, ..none },
            Verdict::TakenSome { taken, skipped } => dm_verdict { kind: Kind::TakenSome as u32, taken, skipped, ..none },
            Verdict::NothingNew => dm_verdict { kind: Kind::NothingNew as u32, ..none },
            Verdict::Malformed { fault, at } => dm_verdict { kind: Kind::Malformed as u32, why: fault as u32, at, ..none },
            Verdict::Refused { refusal, place, other } => {
                dm_verdict { kind: Kind::Refused as u32, why: refusal as u32, place, other, ..none }
            }
        }
    }
}

impl fmt::Display for Verdict {
    fn fmt(&self, f: &mut fmt::Formatter<'_>) -> fmt::Result {
        let line = self.line().map_err(|_| fmt::Error)?;
        f.write_str(String::from_utf8_lossy(&line).trim_end())
    }
}
