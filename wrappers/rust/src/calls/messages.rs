//! The calls on messages.

use crate::metrics::Parts;
use crate::{Answer, Pcrep};

extern "C" {
    fn yq_read_pcreq(
        message: *const u8,
        message_count: usize,
        kinds: *mut u8,
        kinds_count: usize,
        flags: *mut u8,
        flags_count: usize,
        values: *mut u32,
        values_count: usize,
        numbers: *mut u32,
    ) -> u32;

    fn yq_pcreq_tree(
        profile: *const u8,
        profile_count: usize,
        ingress: u16,
        message: *const u8,
        message_count: usize,
        level: *mut u32,
        level_count: usize,
        address: *mut u32,
        address_count: usize,
        reachable: *mut u8,
        reachable_count: usize,
        cost: *mut u32,
        cost_count: usize,
        numbers: *mut u32,
    ) -> u32;

    fn yq_pcreq_first(
        profile: *const u8,
        profile_count: usize,
        ingress: u16,
        message: *const u8,
        message_count: usize,
        path: *mut u32,
        path_count: usize,
        numbers: *mut u32,
    ) -> u32;

    fn yq_pcreq_next(
        profile: *const u8,
        profile_count: usize,
        ingress: u16,
        message: *const u8,
        message_count: usize,
        given: *const u32,
        given_count: usize,
        path: *mut u32,
        path_count: usize,
        numbers: *mut u32,
    ) -> u32;

    fn yq_write_pcrep(
        request_id: u32,
        rp_flags: u32,
        found: bool,
        addresses: *const u32,
        addresses_count: usize,
        nature: u8,
        c_flag: bool,
        kinds: *const u8,
        kinds_count: usize,
        flags: *const u8,
        flags_count: usize,
        values: *const u32,
        values_count: usize,
        out: *mut u8,
        out_count: usize,
        numbers: *mut u32,
    ) -> u32;

    fn yq_read_pcrep(
        message: *const u8,
        message_count: usize,
        addresses: *mut u32,
        addresses_count: usize,
        kinds: *mut u8,
        kinds_count: usize,
        flags: *mut u8,
        flags_count: usize,
        values: *mut u32,
        values_count: usize,
        numbers: *mut u32,
    ) -> u32;
}

/// A profile, the domain that a path starts in, and a PCReq.
#[derive(Clone, Copy)]
pub struct Carried<'a> {
    pub profile: &'a [u8],
    pub ingress: u16,
    pub message: &'a [u8],
}

/// `numbers`: place, request-ID, RP flags, source, destination, bandwidth bits,
/// how many METRICs, offset and length of the include and of the exclude list.
pub fn read_pcreq(message: &[u8], metrics: &mut Parts, numbers: &mut [u32; 11]) -> u32 {
    // SAFETY: the call reads the message's bytes and writes no further than the
    // three buffers and the array's eleven numbers.
    unsafe {
        yq_read_pcreq(
            message.as_ptr(),
            message.len(),
            metrics.kinds.as_mut_ptr(),
            metrics.kinds.len(),
            metrics.flags.as_mut_ptr(),
            metrics.flags.len(),
            metrics.values.as_mut_ptr(),
            metrics.values.len(),
            numbers.as_mut_ptr(),
        )
    }
}

/// `numbers`: place, how many entries, tally, round.
pub fn pcreq_tree(
    asked: Carried,
    level: &mut [u32],
    address: &mut [u32],
    reachable: &mut [u8],
    cost: &mut [u32],
    numbers: &mut [u32; 4],
) -> u32 {
    // SAFETY: the call reads the profile's and the message's bytes and writes no
    // further than the four buffers and the array's four numbers.
    unsafe {
        yq_pcreq_tree(
            asked.profile.as_ptr(),
            asked.profile.len(),
            asked.ingress,
            asked.message.as_ptr(),
            asked.message.len(),
            level.as_mut_ptr(),
            level.len(),
            address.as_mut_ptr(),
            address.len(),
            reachable.as_mut_ptr(),
            reachable.len(),
            cost.as_mut_ptr(),
            cost.len(),
            numbers.as_mut_ptr(),
        )
    }
}

/// `numbers`: place, total, float bits, round.
pub fn pcreq_first(asked: Carried, path: &mut [u32], numbers: &mut [u32; 4]) -> u32 {
    // SAFETY: the call reads the profile's and the message's bytes and writes no
    // further than the path and the array's four numbers.
    unsafe {
        yq_pcreq_first(
            asked.profile.as_ptr(),
            asked.profile.len(),
            asked.ingress,
            asked.message.as_ptr(),
            asked.message.len(),
            path.as_mut_ptr(),
            path.len(),
            numbers.as_mut_ptr(),
        )
    }
}

/// `numbers`: place, total, float bits, round.
pub fn pcreq_next(asked: Carried, given: &[u32], path: &mut [u32], numbers: &mut [u32; 4]) -> u32 {
    // SAFETY: the call reads the profile, the message and the given list and
    // writes no further than the path and the array's four numbers.
    unsafe {
        yq_pcreq_next(
            asked.profile.as_ptr(),
            asked.profile.len(),
            asked.ingress,
            asked.message.as_ptr(),
            asked.message.len(),
            given.as_ptr(),
            given.len(),
            path.as_mut_ptr(),
            path.len(),
            numbers.as_mut_ptr(),
        )
    }
}

/// The reply's path is in `addresses`, its METRICs in `metrics`. `numbers`:
/// place, how many bytes.
pub fn write_pcrep(
    reply: &Pcrep,
    addresses: &[u32],
    metrics: &Parts,
    out: &mut [u8],
    numbers: &mut [u32; 2],
) -> u32 {
    let (found, nature, c) = match reply.answer {
        Answer::Path(_) => (true, 0, false),
        Answer::NoPath { nature, c } => (false, nature, c),
    };
    // SAFETY: the call reads the four lists and writes no further than the
    // buffer and the array's two numbers.
    unsafe {
        yq_write_pcrep(
            reply.request_id,
            reply.rp_flags,
            found,
            addresses.as_ptr(),
            addresses.len(),
            nature,
            c,
            metrics.kinds.as_ptr(),
            metrics.kinds.len(),
            metrics.flags.as_ptr(),
            metrics.flags.len(),
            metrics.values.as_ptr(),
            metrics.values.len(),
            out.as_mut_ptr(),
            out.len(),
            numbers.as_mut_ptr(),
        )
    }
}

/// `numbers`: place, request-ID, RP flags, whether there is a path, nature of
/// issue, C, how many addresses, how many METRICs.
pub fn read_pcrep(
    message: &[u8],
    addresses: &mut [u32],
    metrics: &mut Parts,
    numbers: &mut [u32; 8],
) -> u32 {
    // SAFETY: the call reads the message's bytes and writes no further than the
    // four buffers and the array's eight numbers.
    unsafe {
        yq_read_pcrep(
            message.as_ptr(),
            message.len(),
            addresses.as_mut_ptr(),
            addresses.len(),
            metrics.kinds.as_mut_ptr(),
            metrics.kinds.len(),
            metrics.flags.as_mut_ptr(),
            metrics.flags.len(),
            metrics.values.as_mut_ptr(),
            metrics.values.len(),
            numbers.as_mut_ptr(),
        )
    }
}
