//! A PCReq: what it carries, numbers 36 to 40.

use super::frame::{
    check_header, Objects, Part, BANDWIDTH, END_POINTS, HEADER, IRO, METRIC, PCREQ, RP, RP_FLAGS,
    XRO,
};
use super::metric::Metrics;
use crate::floats::in_range;
use crate::outcome::NotDone;
use crate::profile::u32_at;
use crate::request::{check_list_length, Request};
use crate::subobject::{check_form, List};

/// The fields of a PCReq; of all objects but METRIC the first counts.
#[derive(Clone, Copy, Debug)]
pub struct Carried<'a> {
    pub message: &'a [u8],
    pub request_id: u32,
    pub rp_flags: u32,
    pub source: u32,
    pub destination: u32,
    /// 0.0 without a BANDWIDTH.
    pub bandwidth_bits: u32,
    pub metrics: Metrics,
    pub include: Part,
    pub exclude: Part,
}

impl<'a> Carried<'a> {
    /// What stands in the message, or the first thing wrong with its frame.
    pub fn read(message: &'a [u8]) -> Result<Carried<'a>, NotDone> {
        check_header(message, PCREQ)?;
        let (mut rp, mut end_points, mut bandwidth) = (None, None, None);
        let (mut include, mut exclude) = (None, None);
        let mut metrics = Metrics::default();
        for object in Objects::from(message, HEADER) {
            let object = object?;
            let (whole, length) = (object.whole, object.len());
            match object.class_type {
                RP => {
                    object.has(length >= 12)?;
                    rp = rp.or(Some((u32_at(whole, 8), u32_at(whole, 4) & RP_FLAGS)));
                }
                END_POINTS => {
                    object.has(length == 12)?;
                    end_points = end_points.or(Some((u32_at(whole, 4), u32_at(whole, 8))));
                }
                BANDWIDTH => {
                    object.has(length == 8)?;
                    bandwidth = bandwidth.or(Some(u32_at(whole, 4)));
                }
                METRIC => metrics.meet(&object, message)?,
                IRO => include = include.or(Some(Part::after(&object, 4))),
                XRO => {
                    object.has(length >= 8)?;
                    exclude = exclude.or(Some(Part::after(&object, 8)));
                }
                _ => object.skip()?,
            }
        }
        let Some((request_id, rp_flags)) = rp else {
            return NotDone::at(39, 0);
        };
        let Some((source, destination)) = end_points else {
            return NotDone::at(40, 0);
        };
        Ok(Carried {
            message,
            request_id,
            rp_flags,
            source,
            destination,
            bandwidth_bits: bandwidth.unwrap_or(0),
            metrics,
            include: include.unwrap_or_default(),
            exclude: exclude.unwrap_or_default(),
        })
    }

    /// The checks of a reading alone: 21, 22 and the form of both lists.
    pub fn check(&self) -> Result<(), NotDone> {
        if !in_range(self.bandwidth_bits) {
            return NotDone::at(21, 0);
        }
        self.metrics.check_floats()?;
        let include = self.include.of(self.message);
        let exclude = self.exclude.of(self.message);
        check_list_length(include, 0)?;
        check_list_length(exclude, 1)?;
        check_form(include, List::Include)?;
        check_form(exclude, List::Exclude)
    }

    /// The request that it carries. Any METRIC that is out of range refuses it,
    /// so such a one stands for the bound and is told in the bound's turn.
    pub fn request(&self, profile: &'a [u8], ingress: u16) -> Request<'a> {
        let bound = self.metrics.out_of_range.or(self.metrics.bound);
        Request {
            profile,
            ingress,
            source: self.source,
            destination: self.destination,
            include: self.include.of(self.message),
            exclude: self.exclude.of(self.message),
            bandwidth_bits: self.bandwidth_bits,
            bound_counts: bound.is_some(),
            bound_bits: bound.unwrap_or(0),
        }
    }
}
