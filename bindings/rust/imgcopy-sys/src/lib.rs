//! The calls of `include/imgcopy.h`, which says what each of them takes and returns. The crate
//! `imgcopy` has them without `unsafe`.
#![no_std]
#![allow(non_camel_case_types)]

/// The version of the calls that this file declares, which `imgcopy_abi` has to return.
pub const IMGCOPY_ABI: u32 = 1;

pub const IMGCOPY_TOO_SHORT: u32 = 1000;
pub const IMGCOPY_LENGTHS_DIFFER: u32 = 1001;

#[repr(C)]
#[derive(Clone, Copy, Debug, PartialEq, Eq)]
pub struct imgcopy_outcome {
    pub code: u32,
    pub first: u64,
    pub second: u64,
    pub third: u64,
}

extern "C" {
    pub fn imgcopy_abi() -> u32;

    pub fn imgcopy_check_log(log: *const u8, log_length: usize) -> imgcopy_outcome;

    pub fn imgcopy_redo(
        log: *const u8,
        log_length: usize,
        volume: *mut u8,
        volume_length: usize,
    ) -> imgcopy_outcome;

    pub fn imgcopy_log_prefix(log: *const u8, log_length: usize) -> imgcopy_outcome;

    pub fn imgcopy_recover(
        log: *const u8,
        log_length: usize,
        volume: *mut u8,
        volume_length: usize,
        tail: *mut u8,
        tail_length: usize,
    ) -> imgcopy_outcome;

    pub fn imgcopy_audit(
        log: *const u8,
        log_length: usize,
        archives: *const u8,
        archives_length: usize,
        lengths: *const usize,
        lengths_count: usize,
    ) -> imgcopy_outcome;
}
