//! The library of Pasturepast: reads and merges the patch bundles of Darcs, in memory.
//!
//! ```
//! # fn main() -> Result<(), dm::Error> {
//! let bundle = b"New patches:\n\n[a\np**20240101000000] adddir ./d\n\nContext:\n\n";
//! let mut repo = dm::Repo::new()?;
//! let verdict = repo.take(bundle, dm::Limits::STANDARD, dm::Policy::Refuse)?;
//! assert_eq!(verdict, dm::Verdict::Taken(1));
//! assert_eq!(repo.listing()?, b"dir ./d\n");
//! # Ok(())
//! # }
//! ```
//!
//! What dm.h asks of its caller, this crate keeps: pointers are of slices, a handle is freed once, and `&mut` or the lack of `Sync`
//! keep it to one thread at a time.
#![warn(missing_docs)]

pub mod ffi;
mod numbers;
mod verdict;

pub use numbers::{Fault, Kind, Kinds, Policy, Refusal};
pub use verdict::Verdict;

use ffi::{dm_limits, dm_repo, dm_verdict};
use std::cell::UnsafeCell;
use std::fmt;

/// How much of a text is read.
#[derive(Clone, Copy, Debug, PartialEq, Eq)]
pub struct Limits {
    /// The most bytes of a text.
    pub bytes: usize,
    /// The most new patches of a bundle.
    pub patches: usize,
    /// The most primitives of a patch.
    pub prims: usize,
    /// The most replaces of a bundle. A replace walks over a whole file.
    pub replaces: usize,
    /// The kinds of primitives.
    pub kinds: Kinds,
}

impl Limits {
    /// For a text of somebody else.
    pub const STANDARD: Limits = Limits { bytes: 4_194_304, patches: 1000, prims: 10_000, replaces: 500, kinds: Kinds::Six };
    /// For a repository of one's own: each primitive may be a replace.
    pub const OWN: Limits =
        Limits { bytes: 1_073_741_824, patches: 100_000, prims: 1_000_000, replaces: 100_000_000_000, kinds: Kinds::Six };

    /// These limits, but with other kinds.
    pub const fn with_kinds(self, kinds: Kinds) -> Limits {
        Limits { kinds, ..self }
    }

    fn plain(self) -> dm_limits {
        let Limits { bytes, patches, prims, replaces, kinds } = self;
        dm_limits { bytes, patches, prims, replaces, kinds: kinds as u32 }
    }
}

/// Why a call has no value.
#[derive(Clone, Copy, Debug, PartialEq, Eq)]
pub enum Error {
    /// The answer is no, and why.
    Rejected(Verdict),
    /// An allocation failed; nothing was changed.
    NoMemory,
    /// An answer that dm.h doesn't have for the call: the library is of another version.
    Unknown(u32),
}

impl fmt::Display for Error {
    fn fmt(&self, f: &mut fmt::Formatter<'_>) -> fmt::Result {
        match self {
            Error::Rejected(verdict) => verdict.fmt(f),
            Error::NoMemory => f.write_str("no memory"),
            Error::Unknown(status) => write!(f, "the library answered {status}"),
        }
    }
}

impl std::error::Error for Error {}

/// What a call answered that gives a text.
struct Given {
    status: u32,
    text: Vec<u8>,
}

impl Given {
    /// Calls with some room, and once more where it was too small.
    fn by(room: usize, mut call: impl FnMut(*mut u8, usize, *mut usize) -> u32) -> Result<Given, Error> {
        let mut text: Vec<u8> = Vec::new();
        let mut needed = room.max(1);
        loop {
            text.try_reserve_exact(needed).map_err(|_| Error::NoMemory)?;
            needed = 0;
            let status = call(text.as_mut_ptr(), text.capacity(), &mut needed);
            if status == ffi::DM_SHORT {
                continue;
            }
            // SAFETY: the call has written so many bytes, or none, and then `needed` is still 0.
            unsafe { text.set_len(needed) };
            return Ok(Given { status, text });
        }
    }

    fn ok(self) -> Result<Vec<u8>, Error> {
        done(self.status)?;
        Ok(self.text)
    }

    fn or_none(self) -> Result<Option<Vec<u8>>, Error> {
        match self.status {
            ffi::DM_NONE => Ok(None),
            _ => self.ok().map(Some),
        }
    }

    fn or_rejected(self, verdict: dm_verdict) -> Result<Given, Error> {
        match self.status {
            ffi::DM_NO => Err(Error::Rejected(Verdict::of(verdict)?)),
            _ => Ok(self),
        }
    }
}

fn done(status: u32) -> Result<(), Error> {
    match status {
        ffi::DM_OK => Ok(()),
        ffi::DM_NO_MEMORY => Err(Error::NoMemory),
        _ => Err(Error::Unknown(status)),
    }
}

/// The canonical text of a bundle, as `dm check` prints it.
pub fn check(text: &[u8], limits: Limits) -> Result<Vec<u8>, Error> {
    let mut verdict = dm_verdict::default();
    let limits = limits.plain();
    // SAFETY: each pointer is of a slice, a variable or the room of `by`, none of which overlap.
    let given = Given::by(text.len() + text.len() / 8, |out, cap, needed| unsafe {
        ffi::dm_check(text.as_ptr(), text.len(), &limits, out, cap, needed, &mut verdict)
    })?;
    given.or_rejected(verdict)?.ok()
}

/// The version, as `dm --version` has it behind the name.
pub fn version() -> Result<Vec<u8>, Error> {
    // SAFETY: as in `check`.
    Given::by(64, |out, cap, needed| unsafe { ffi::dm_version(out, cap, needed) })?.ok()
}

/// A repository in memory. It can go to another thread, but isn't used by two at once, and has no copies.
///
/// ```compile_fail
/// fn shared<T: Sync>() {}
/// shared::<dm::Repo>();
/// ```
///
/// ```compile_fail
/// fn copied<T: Clone>() {}
/// copied::<dm::Repo>();
/// ```
pub struct Repo {
    raw: UnsafeCell<dm_repo>,
}

// SAFETY: dm.h lets a handle be used on one thread after another. Its cell keeps `Repo` from being `Sync`.
unsafe impl Send for Repo {}

impl Drop for Repo {
    fn drop(&mut self) {
        // SAFETY: `new` made it, and nothing else frees it.
        unsafe { ffi::dm_repo_free(self.raw.get()) };
    }
}

impl Repo {
    /// An empty repository.
    pub fn new() -> Result<Repo, Error> {
        let mut raw = dm_repo { holds: false, inner: std::ptr::null_mut() };
        // SAFETY: the handle is begun as DM_REPO_INIT has it.
        done(unsafe { ffi::dm_repo_new(&mut raw) })?;
        Ok(Repo { raw: UnsafeCell::new(raw) })
    }

    /// Takes a bundle. Unless the verdict is `Taken` or `TakenSome`, the repository is as it was.
    pub fn take(&mut self, text: &[u8], limits: Limits, policy: Policy) -> Result<Verdict, Error> {
        let mut verdict = dm_verdict::default();
        let limits = limits.plain();
        // SAFETY: as in `check`; the handle holds a repository.
        match unsafe { ffi::dm_repo_take(self.raw.get(), text.as_ptr(), text.len(), &limits, policy as u32, &mut verdict) } {
            ffi::DM_OK | ffi::DM_NO => Verdict::of(verdict),
            status => Err(done(status).err().unwrap_or(Error::Unknown(status))),
        }
    }

    /// How many patches it has.
    pub fn len(&self) -> Result<usize, Error> {
        let mut count = 0;
        // SAFETY: as in `take`.
        done(unsafe { ffi::dm_repo_len(self.raw.get(), &mut count) })?;
        Ok(count)
    }

    /// Whether it has none.
    pub fn is_empty(&self) -> Result<bool, Error> {
        Ok(self.len()? == 0)
    }

    /// The patch info at this place, if there is one; the oldest is at 0.
    pub fn name(&self, place: usize) -> Result<Option<Vec<u8>>, Error> {
        // SAFETY: as in `take`.
        Given::by(256, |out, cap, needed| unsafe { ffi::dm_repo_name(self.raw.get(), place, out, cap, needed) })?.or_none()
    }

    /// The patch infos, the oldest first.
    pub fn names(&self) -> Result<Vec<Vec<u8>>, Error> {
        (0..self.len()?).map(|place| self.name(place).map(Option::unwrap_or_default)).collect()
    }

    /// Its names, as `dm log --context` prints them.
    pub fn context(&self) -> Result<Vec<u8>, Error> {
        // SAFETY: as in `take`.
        Given::by(4096, |out, cap, needed| unsafe { ffi::dm_repo_context(self.raw.get(), out, cap, needed) })?.ok()
    }

    /// Its tree, as `dm apply` lists it.
    pub fn listing(&self) -> Result<Vec<u8>, Error> {
        // SAFETY: as in `take`.
        Given::by(4096, |out, cap, needed| unsafe { ffi::dm_repo_listing(self.raw.get(), out, cap, needed) })?.ok()
    }

    /// The content of the file at this path, if there is one. The path is as the listing has it, `./a/b`.
    pub fn file(&self, path: &[u8]) -> Result<Option<Vec<u8>>, Error> {
        // SAFETY: as in `take`.
        Given::by(4096, |out, cap, needed| unsafe {
            ffi::dm_repo_file(self.raw.get(), path.as_ptr(), path.len(), out, cap, needed)
        })?
        .or_none()
    }

    /// All its patches as one bundle, as `dm apply --bundle` prints it.
    pub fn bundle(&self) -> Result<Vec<u8>, Error> {
        // SAFETY: as in `take`.
        Given::by(65536, |out, cap, needed| unsafe { ffi::dm_repo_bundle(self.raw.get(), out, cap, needed) })?.ok()
    }

    /// The bundle, with its hash, for somebody who tells these names, by a bundle or a context; `None` where they have all. With
    /// `minimal` its context names only what the patches need.
    pub fn send(&self, theirs: &[u8], limits: Limits, minimal: bool) -> Result<Option<Vec<u8>>, Error> {
        let mut verdict = dm_verdict::default();
        let limits = limits.plain();
        // SAFETY: as in `take`.
        let given = Given::by(65536, |out, cap, needed| unsafe {
            ffi::dm_repo_send(self.raw.get(), theirs.as_ptr(), theirs.len(), &limits, minimal, out, cap, needed, &mut verdict)
        })?;
        given.or_rejected(verdict)?.or_none()
    }

    /// What `--explain` says of the verdict that `take` gave of this text just now, or of one of `check`, in any repository.
    pub fn explain(&self, text: &[u8], limits: Limits, policy: Policy, verdict: &Verdict) -> Result<Option<Vec<u8>>, Error> {
        let (limits, verdict) = (limits.plain(), verdict.plain());
        // SAFETY: as in `take`.
        let given = Given::by(4096, |out, cap, needed| unsafe {
            ffi::dm_repo_explain(self.raw.get(), text.as_ptr(), text.len(), &limits, policy as u32, &verdict, out, cap, needed)
        })?;
        given.or_none()
    }
}

impl fmt::Debug for Repo {
    fn fmt(&self, f: &mut fmt::Formatter<'_>) -> fmt::Result {
        f.write_str("Repo")
    }
}
