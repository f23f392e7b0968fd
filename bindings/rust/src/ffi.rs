//! dm.h, but that no handle is const: calls that leave it as it was write to it meanwhile.
#![allow(non_camel_case_types, missing_docs)]

use std::ffi::c_void;

#[repr(C)]
#[derive(Clone, Copy)]
pub struct dm_limits {
    pub bytes: usize,
    pub patches: usize,
    pub prims: usize,
    pub replaces: usize,
    pub kinds: u32,
}

#[repr(C)]
#[derive(Clone, Copy, Default)]
pub struct dm_verdict {
    pub kind: u32,
    pub why: u32,
    pub taken: usize,
    pub skipped: usize,
    pub at: usize,
    pub place: usize,
    pub other: usize,
}

#[repr(C)]
pub struct dm_repo {
    pub holds: bool,
    pub inner: *mut c_void,
}

pub const DM_OK: u32 = 0;
pub const DM_SHORT: u32 = 1;
pub const DM_NO_MEMORY: u32 = 2;
pub const DM_NONE: u32 = 3;
pub const DM_NO: u32 = 4;

#[rustfmt::skip]
extern "C" {
    pub fn dm_check(text: *const u8, len: usize, limits: *const dm_limits, out: *mut u8, cap: usize, needed: *mut usize, verdict: *mut dm_verdict) -> u32;
    pub fn dm_verdict_line(verdict: *const dm_verdict, out: *mut u8, cap: usize, needed: *mut usize) -> u32;
    pub fn dm_repo_new(repo: *mut dm_repo) -> u32;
    pub fn dm_repo_free(repo: *mut dm_repo) -> u32;
    pub fn dm_repo_take(repo: *mut dm_repo, text: *const u8, len: usize, limits: *const dm_limits, policy: u32, verdict: *mut dm_verdict) -> u32;
    pub fn dm_repo_len(repo: *mut dm_repo, count: *mut usize) -> u32;
    pub fn dm_repo_name(repo: *mut dm_repo, place: usize, out: *mut u8, cap: usize, needed: *mut usize) -> u32;
    pub fn dm_repo_context(repo: *mut dm_repo, out: *mut u8, cap: usize, needed: *mut usize) -> u32;
    pub fn dm_repo_listing(repo: *mut dm_repo, out: *mut u8, cap: usize, needed: *mut usize) -> u32;
    pub fn dm_repo_file(repo: *mut dm_repo, path: *const u8, len: usize, out: *mut u8, cap: usize, needed: *mut usize) -> u32;
    pub fn dm_repo_bundle(repo: *mut dm_repo, out: *mut u8, cap: usize, needed: *mut usize) -> u32;
    pub fn dm_repo_send(repo: *mut dm_repo, theirs: *const u8, len: usize, limits: *const dm_limits, minimal: bool, out: *mut u8, cap: usize, needed: *mut usize, verdict: *mut dm_verdict) -> u32;
    pub fn dm_repo_explain(repo: *mut dm_repo, text: *const u8, len: usize, limits: *const dm_limits, policy: u32, verdict: *const dm_verdict, out: *mut u8, cap: usize, needed: *mut usize) -> u32;
    pub fn dm_version(out: *mut u8, cap: usize, needed: *mut usize) -> u32;
}
