//! The calls of `include/yachayniq.h`, on slices.

use crate::lists::Parts;
use crate::Request;

pub mod messages;

extern "C" {
    fn yq_check_profile(profile: *const u8, profile_count: usize, numbers: *mut u32) -> u32;

    fn yq_read_include(
        profile: *const u8,
        profile_count: usize,
        ingress: u16,
        include: *const u8,
        include_count: usize,
        domains: *mut u16,
        domains_count: usize,
        pinned: *mut u8,
        pinned_count: usize,
        pins: *mut u32,
        pins_count: usize,
        exrs_counts: *mut u32,
        exrs_counts_count: usize,
        exrs: *mut u8,
        exrs_count: usize,
        numbers: *mut u32,
    ) -> u32;

    fn yq_write_list(
        profile: *const u8,
        profile_count: usize,
        domains: *const u16,
        domains_count: usize,
        pinned: *const u8,
        pinned_count: usize,
        pins: *const u32,
        pins_count: usize,
        exrs_counts: *const u32,
        exrs_counts_count: usize,
        exrs: *const u8,
        exrs_count: usize,
        out: *mut u8,
        out_count: usize,
        numbers: *mut u32,
    ) -> u32;
}

/// Declares a C call with a request, then the arguments given here.
macro_rules! declare {
    ($call:ident($($argument:ident: $type:ty),*)) => {
        extern "C" {
            fn $call(
                profile: *const u8,
                profile_count: usize,
                ingress: u16,
                source: u32,
                destination: u32,
                include: *const u8,
                include_count: usize,
                exclude: *const u8,
                exclude_count: usize,
                bandwidth_bits: u32,
                bound_counts: bool,
                bound_bits: u32,
                $($argument: $type),*
            ) -> u32;
        }
    };
}

declare!(yq_tree(
    level: *mut u32, level_count: usize,
    address: *mut u32, address_count: usize,
    reachable: *mut u8, reachable_count: usize,
    cost: *mut u32, cost_count: usize,
    numbers: *mut u32
));
declare!(yq_first(path: *mut u32, path_count: usize, numbers: *mut u32));
declare!(yq_next(
    given: *const u32, given_count: usize,
    path: *mut u32, path_count: usize,
    numbers: *mut u32
));
declare!(yq_series(
    kinds: *const u8, kinds_count: usize,
    sizes: *const u32, sizes_count: usize,
    buffers: *mut u32, buffers_count: usize,
    numbers: *mut u32, numbers_count: usize
));

/// Makes such a call with a profile and a request.
macro_rules! call {
    ($call:ident($profile:ident, $request:ident, $($argument:expr),*)) => {
        // SAFETY: the call reads no further than the slices lent to it and
        // writes no further than the slices and the numbers lent mutably.
        unsafe {
            $call(
                $profile.as_ptr(),
                $profile.len(),
                $request.ingress,
                $request.source.into(),
                $request.destination.into(),
                $request.include.as_ptr(),
                $request.include.len(),
                $request.exclude.as_ptr(),
                $request.exclude.len(),
                $request.bandwidth.to_bits(),
                $request.bound.is_some(),
                $request.bound.unwrap_or(0.0).to_bits(),
                $($argument),*
            )
        }
    };
}

/// `numbers`: place.
pub fn check_profile(profile: &[u8], numbers: &mut [u32; 1]) -> u32 {
    // SAFETY: the call reads the slice's bytes and writes the array's number.
    unsafe { yq_check_profile(profile.as_ptr(), profile.len(), numbers.as_mut_ptr()) }
}

/// `numbers`: place, how many domains, how many bytes of EXRS.
pub fn read_include(
    profile: &[u8],
    ingress: u16,
    include: &[u8],
    room: &mut Parts,
    numbers: &mut [u32; 3],
) -> u32 {
    // SAFETY: the call reads the two lists' bytes and writes no further than
    // the five buffers and the array's three numbers.
    unsafe {
        yq_read_include(
            profile.as_ptr(),
            profile.len(),
            ingress,
            include.as_ptr(),
            include.len(),
            room.domains.as_mut_ptr(),
            room.domains.len(),
            room.pinned.as_mut_ptr(),
            room.pinned.len(),
            room.pins.as_mut_ptr(),
            room.pins.len(),
            room.exrs_counts.as_mut_ptr(),
            room.exrs_counts.len(),
            room.exrs.as_mut_ptr(),
            room.exrs.len(),
            numbers.as_mut_ptr(),
        )
    }
}

/// `numbers`: place, how many bytes.
pub fn write_list(profile: &[u8], stops: &Parts, out: &mut [u8], numbers: &mut [u32; 2]) -> u32 {
    // SAFETY: the call reads the six lists and writes no further than the
    // buffer and the array's two numbers.
    unsafe {
        yq_write_list(
            profile.as_ptr(),
            profile.len(),
            stops.domains.as_ptr(),
            stops.domains.len(),
            stops.pinned.as_ptr(),
            stops.pinned.len(),
            stops.pins.as_ptr(),
            stops.pins.len(),
            stops.exrs_counts.as_ptr(),
            stops.exrs_counts.len(),
            stops.exrs.as_ptr(),
            stops.exrs.len(),
            out.as_mut_ptr(),
            out.len(),
            numbers.as_mut_ptr(),
        )
    }
}

/// `numbers`: place, how many entries, tally, round.
pub fn tree(
    profile: &[u8],
    request: &Request,
    level: &mut [u32],
    address: &mut [u32],
    reachable: &mut [u8],
    cost: &mut [u32],
    numbers: &mut [u32; 4],
) -> u32 {
    call!(yq_tree(
        profile,
        request,
        level.as_mut_ptr(),
        level.len(),
        address.as_mut_ptr(),
        address.len(),
        reachable.as_mut_ptr(),
        reachable.len(),
        cost.as_mut_ptr(),
        cost.len(),
        numbers.as_mut_ptr()
    ))
}

/// `numbers`: place, total, float bits, round.
pub fn first(profile: &[u8], request: &Request, path: &mut [u32], numbers: &mut [u32; 4]) -> u32 {
    call!(yq_first(
        profile,
        request,
        path.as_mut_ptr(),
        path.len(),
        numbers.as_mut_ptr()
    ))
}

/// `numbers`: place, total, float bits, round.
pub fn next(
    profile: &[u8],
    request: &Request,
    given: &[u32],
    path: &mut [u32],
    numbers: &mut [u32; 4],
) -> u32 {
    call!(yq_next(
        profile,
        request,
        given.as_ptr(),
        given.len(),
        path.as_mut_ptr(),
        path.len(),
        numbers.as_mut_ptr()
    ))
}

/// `numbers`, for each call: answer, place, total, float bits, round.
pub fn series(
    profile: &[u8],
    request: &Request,
    kinds: &[u8],
    sizes: &[u32],
    buffers: &mut [u32],
    numbers: &mut [u32],
) -> u32 {
    call!(yq_series(
        profile,
        request,
        kinds.as_ptr(),
        kinds.len(),
        sizes.as_ptr(),
        sizes.len(),
        buffers.as_mut_ptr(),
        buffers.len(),
        numbers.as_mut_ptr(),
        numbers.len()
    ))
}
