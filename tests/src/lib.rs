//! The proved library's C interface (`include/yachayniq.h`) as Rust functions.
//! Each has the signature of the function of that name in `reference`, so that
//! one test can give both programs the same arguments and compare all they
//! leave.

pub mod compare;
pub mod every_call;
pub mod exrs;
pub mod floats;
pub mod frames;
pub mod lists;
pub mod metrics;
pub mod nobodys;
pub mod paths;
pub mod pcrep;
pub mod pcreq;
mod request;
pub mod series;
pub mod stack;
pub mod tree;
pub mod wide;
pub mod writing;
pub mod wrong;

/// Profiles written out by hand, shared with the reference's own tests.
#[path = "../../reference/tests/common/mod.rs"]
pub mod by_hand;

pub use by_hand::rows;

extern "C" {
    fn yq_check_profile(profile: *const u8, profile_count: usize, numbers: *mut u32) -> u32;

    fn yq_read_include(
        profile: *const u8,
        profile_count: usize,
        ingress: u16,
        include: *const u8,
        include_count: usize,
        domains: *mut u16,
        domains_count: usize,
        pinned: *mut u8,
        pinned_count: usize,
        pins: *mut u32,
        pins_count: usize,
        exrs_counts: *mut u32,
        exrs_counts_count: usize,
        exrs: *mut u8,
        exrs_count: usize,
        numbers: *mut u32,
    ) -> u32;

    fn yq_write_list(
        profile: *const u8,
        profile_count: usize,
        domains: *const u16,
        domains_count: usize,
        pinned: *const u8,
        pinned_count: usize,
        pins: *const u32,
        pins_count: usize,
        exrs_counts: *const u32,
        exrs_counts_count: usize,
        exrs: *const u8,
        exrs_count: usize,
        out: *mut u8,
        out_count: usize,
        numbers: *mut u32,
    ) -> u32;
}

/// Checks a profile. `numbers`: place.
pub fn check_profile(profile: &[u8], numbers: &mut [u32; 1]) -> u32 {
    // SAFETY: the call reads the slice's bytes and writes the array's number.
    unsafe { yq_check_profile(profile.as_ptr(), profile.len(), numbers.as_mut_ptr()) }
}

/// Reads an include list. The EXRS of all domains stand back to back in `exrs`;
/// `exrs_counts` says how many bytes of them each domain has. `numbers`: place,
/// how many domains, how many bytes of EXRS.
pub fn read_include(
    profile: &[u8],
    ingress: u16,
    include: &[u8],
    domains: &mut [u16],
    pinned: &mut [u8],
    pins: &mut [u32],
    exrs_counts: &mut [u32],
    exrs: &mut [u8],
    numbers: &mut [u32; 3],
) -> u32 {
    // SAFETY: the call reads the two lists' bytes and writes no further than
    // the five buffers and the array's three numbers.
    unsafe {
        yq_read_include(
            profile.as_ptr(),
            profile.len(),
            ingress,
            include.as_ptr(),
            include.len(),
            domains.as_mut_ptr(),
            domains.len(),
            pinned.as_mut_ptr(),
            pinned.len(),
            pins.as_mut_ptr(),
            pins.len(),
            exrs_counts.as_mut_ptr(),
            exrs_counts.len(),
            exrs.as_mut_ptr(),
            exrs.len(),
            numbers.as_mut_ptr(),
        )
    }
}

/// Writes a sequence of domains, with EXRS as `read_include` gives them.
/// `numbers`: place, how many bytes.
pub fn write_list(
    profile: &[u8],
    domains: &[u16],
    pinned: &[u8],
    pins: &[u32],
    exrs_counts: &[u32],
    exrs: &[u8],
    out: &mut [u8],
    numbers: &mut [u32; 2],
) -> u32 {
    // SAFETY: the call reads the six lists and writes no further than the
    // buffer and the array's two numbers.
    unsafe {
        yq_write_list(
            profile.as_ptr(),
            profile.len(),
            domains.as_ptr(),
            domains.len(),
            pinned.as_ptr(),
            pinned.len(),
            pins.as_ptr(),
            pins.len(),
            exrs_counts.as_ptr(),
            exrs_counts.len(),
            exrs.as_ptr(),
            exrs.len(),
            out.as_mut_ptr(),
            out.len(),
            numbers.as_mut_ptr(),
        )
    }
}
