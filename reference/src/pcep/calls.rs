//! The calls on messages, as the C interface has them.

use super::pcrep::{addresses as ero_addresses, Answered, Said};
use super::pcreq::Carried;
use super::reply::Reply;
use crate::calls::{enough_room, first, next, tree};
use crate::outcome::settle;
use crate::request::Request;

/// What the three calls through a PCReq take beside their buffers.
#[derive(Clone, Copy, Debug)]
pub struct PcReq<'a> {
    pub profile: &'a [u8],
    pub ingress: u16,
    pub message: &'a [u8],
}

/// Reads a PCReq. `numbers`: place, request-ID, RP flags, source, destination,
/// bandwidth bits, how many METRICs, then offset and length in the message of
/// the include and of the exclude list.
pub fn read_pcreq(
    message: &[u8],
    kinds: &mut [u8],
    flags: &mut [u8],
    values: &mut [u32],
    numbers: &mut [u32; 11],
) -> u32 {
    let result = Carried::read(message).and_then(|carried| {
        carried.check()?;
        let metrics = &carried.metrics;
        enough_room(&[kinds.len(), flags.len(), values.len()], metrics.count)?;
        metrics.copy_to(message, kinds, flags, values);
        Ok([
            0,
            carried.request_id,
            carried.rp_flags,
            carried.source,
            carried.destination,
            carried.bandwidth_bits,
            metrics.count as u32,
            carried.include.offset as u32,
            carried.include.length as u32,
            carried.exclude.offset as u32,
            carried.exclude.length as u32,
        ])
    });
    settle(result, numbers)
}

/// The tree of the request that a PCReq carries; the rest is as for `tree`.
pub fn pcreq_tree(
    asked: &PcReq,
    level: &mut [u32],
    address: &mut [u32],
    reachable: &mut [u8],
    cost: &mut [u32],
    numbers: &mut [u32; 4],
) -> u32 {
    through(asked, numbers, |request, numbers| {
        tree(request, level, address, reachable, cost, numbers)
    })
}

/// The first shortest path of the request that a PCReq carries.
pub fn pcreq_first(asked: &PcReq, path: &mut [u32], numbers: &mut [u32; 4]) -> u32 {
    through(asked, numbers, |request, numbers| {
        first(request, path, numbers)
    })
}

/// Its shortest path after a given list.
pub fn pcreq_next(asked: &PcReq, given: &[u32], path: &mut [u32], numbers: &mut [u32; 4]) -> u32 {
    through(asked, numbers, |request, numbers| {
        next(request, given, path, numbers)
    })
}

/// A call on the request that the message carries.
fn through(
    asked: &PcReq,
    numbers: &mut [u32; 4],
    call: impl FnOnce(&Request, &mut [u32; 4]) -> u32,
) -> u32 {
    match Carried::read(asked.message) {
        Ok(carried) => call(&carried.request(asked.profile, asked.ingress), numbers),
        Err(not_done) => settle(Err(not_done), numbers),
    }
}

/// Writes a PCRep. `numbers`: place, how many bytes.
pub fn write_pcrep(reply: &Reply, out: &mut [u8], numbers: &mut [u32; 2]) -> u32 {
    let result = reply.measure().and_then(|length| {
        enough_room(&[out.len()], length)?;
        reply.write(&mut out[..length]);
        Ok([0, length as u32])
    });
    settle(result, numbers)
}

/// Reads a PCRep. `numbers`: place, request-ID, RP flags, whether there is a
/// path, nature of issue, C, how many addresses, how many METRICs.
pub fn read_pcrep(
    message: &[u8],
    addresses: &mut [u32],
    kinds: &mut [u8],
    flags: &mut [u8],
    values: &mut [u32],
    numbers: &mut [u32; 8],
) -> u32 {
    let result = Answered::read(message).and_then(|answered| {
        let metrics = &answered.metrics;
        let (ero, nature, c_flag) = match answered.said {
            Said::Path(ero) => (Some(ero.of(message)), 0, false),
            Said::NoPath { nature, c_flag } => (None, nature, c_flag),
        };
        let found = u32::from(ero.is_some());
        let ero = ero.unwrap_or_default();
        let address_count = ero.len() / 8;
        enough_room(&[addresses.len()], address_count)?;
        enough_room(&[kinds.len(), flags.len(), values.len()], metrics.count)?;
        for (lent, address) in addresses.iter_mut().zip(ero_addresses(ero)) {
            *lent = address;
        }
        metrics.copy_to(message, kinds, flags, values);
        Ok([
            0,
            answered.request_id,
            answered.rp_flags,
            found,
            u32::from(nature),
            u32::from(c_flag),
            address_count as u32,
            metrics.count as u32,
        ])
    });
    settle(result, numbers)
}
