//! A PCRep that is written: RP, then ERO or NO-PATH, then the METRICs.

use super::frame::{ClassType, ERO, HEADER, METRIC, NO_PATH, P, PCREP, RP, RP_FLAGS, VERSION};
use super::metric::LENGTH as METRIC_LENGTH;
use super::pcrep::{C, IPV4, IPV4_LENGTH, WHOLE_PREFIX};
use crate::floats::in_range;
use crate::outcome::NotDone;

const MAX_MESSAGE: usize = 65_535;

const RP_LENGTH: usize = 12;
const NO_PATH_LENGTH: usize = 8;

/// What `write_pcrep` takes, as the C interface passes it.
#[derive(Clone, Copy, Debug)]
pub struct Reply<'a> {
    pub request_id: u32,
    pub rp_flags: u32,
    /// Whether there is a path; if not, its addresses aren't looked at.
    pub found: bool,
    pub addresses: &'a [u32],
    /// Nature of issue and the flag C: looked at only without a path.
    pub nature: u8,
    pub c_flag: bool,
    /// The METRICs, part by part.
    pub kinds: &'a [u8],
    pub flags: &'a [u8],
    pub values: &'a [u32],
}

impl Reply<'_> {
    /// How long the message is, or the first thing wrong with the fields.
    pub fn measure(&self) -> Result<usize, NotDone> {
        let metrics = self.values.len();
        let counts_agree = self.kinds.len() == metrics && self.flags.len() == metrics;
        // Each count alone first, since lists may be of any length.
        let counts_fit = metrics <= MAX_MESSAGE && self.path().len() <= MAX_MESSAGE;
        if !counts_agree || !counts_fit {
            return NotDone::at(37, 0);
        }
        let said = match self.found {
            true => HEADER + IPV4_LENGTH * self.addresses.len(),
            false => NO_PATH_LENGTH,
        };
        let length = HEADER + RP_LENGTH + said + METRIC_LENGTH * metrics;
        if length > MAX_MESSAGE {
            return NotDone::at(37, 0);
        }
        match self.values.iter().all(|&bits| in_range(bits)) {
            true => Ok(length),
            false => NotDone::at(21, 1),
        }
    }

    fn path(&self) -> &[u32] {
        match self.found {
            true => self.addresses,
            false => &[],
        }
    }

    /// The message, into exactly as many bytes as it has.
    pub fn write(&self, out: &mut [u8]) {
        let [high, low] = (out.len() as u16).to_be_bytes();
        let (header, out) = out.split_at_mut(HEADER);
        header.copy_from_slice(&[VERSION << 5, PCREP, high, low]);
        let (rp, out) = out.split_at_mut(RP_LENGTH);
        put_header(rp, RP, P);
        rp[4..8].copy_from_slice(&(self.rp_flags & RP_FLAGS).to_be_bytes());
        rp[8..].copy_from_slice(&self.request_id.to_be_bytes());
        let (said, metrics) = out.split_at_mut(out.len() - METRIC_LENGTH * self.values.len());
        match self.found {
            true => self.put_ero(said),
            false => self.put_no_path(said),
        }
        self.put_metrics(metrics);
    }

    fn put_ero(&self, ero: &mut [u8]) {
        put_header(ero, ERO, 0);
        let (subobjects, _) = ero[HEADER..].as_chunks_mut::<IPV4_LENGTH>();
        for (subobject, address) in subobjects.iter_mut().zip(self.addresses) {
            let [a, b, c, d] = address.to_be_bytes();
            *subobject = [IPV4, IPV4_LENGTH as u8, a, b, c, d, WHOLE_PREFIX, 0];
        }
    }

    fn put_no_path(&self, no_path: &mut [u8]) {
        put_header(no_path, NO_PATH, 0);
        let [high, low] = if self.c_flag { C } else { 0 }.to_be_bytes();
        no_path[HEADER..].copy_from_slice(&[self.nature, high, low, 0]);
    }

    fn put_metrics(&self, metrics: &mut [u8]) {
        let (metrics, _) = metrics.as_chunks_mut::<METRIC_LENGTH>();
        let parts = self.kinds.iter().zip(self.flags).zip(self.values);
        for (metric, ((&kind, &flags), value)) in metrics.iter_mut().zip(parts) {
            put_header(metric, METRIC, 0);
            metric[4..8].copy_from_slice(&[0, 0, flags, kind]);
            metric[8..].copy_from_slice(&value.to_be_bytes());
        }
    }
}

/// The header of the object whose bytes these are. I and the reserved bits are
/// 0.
fn put_header(object: &mut [u8], (class, object_type): ClassType, p: u8) {
    let [high, low] = (object.len() as u16).to_be_bytes();
    object[..HEADER].copy_from_slice(&[class, object_type << 4 | p, high, low]);
}
