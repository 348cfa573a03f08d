//! The arguments that every call with a request begins with, as C takes them.

/// Declares a C call: a request, then the arguments given here.
macro_rules! declare {
    ($call:ident($($argument:ident: $type:ty),* $(,)?)) => {
        extern "C" {
            fn $call(
                profile: *const u8,
                profile_count: usize,
                ingress: u16,
                source: u32,
                destination: u32,
                include: *const u8,
                include_count: usize,
                exclude: *const u8,
                exclude_count: usize,
                bandwidth_bits: u32,
                bound_counts: bool,
                bound_bits: u32,
                $($argument: $type),*
            ) -> u32;
        }
    };
}

/// Makes such a call with a `reference::Request`.
macro_rules! call {
    ($call:ident($request:ident, $($argument:expr),* $(,)?)) => {
        $call(
            $request.profile.as_ptr(),
            $request.profile.len(),
            $request.ingress,
            $request.source,
            $request.destination,
            $request.include.as_ptr(),
            $request.include.len(),
            $request.exclude.as_ptr(),
            $request.exclude.len(),
            $request.bandwidth_bits,
            $request.bound_counts,
            $request.bound_bits,
            $($argument),*
        )
    };
}

pub(crate) use {call, declare};
