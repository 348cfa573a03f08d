//! PCReq messages: read, written, and the request that one carries.

use crate::calls::messages as calls;
use crate::metrics::Parts;
use crate::refusal::unless_refused;
use crate::{Call, Metric, Refusal, Request};
use std::net::Ipv4Addr;

/// How long a message can be.
pub(crate) const MOST_BYTES: usize = 65_535;

/// What a PCReq asks.
#[derive(Clone, Debug, PartialEq, Eq)]
pub struct Pcreq<'a> {
    pub request_id: u32,
    /// O 0x20, B 0x10, R 0x08, and the priority in the low three bits.
    pub rp_flags: u32,
    pub source: Ipv4Addr,
    pub destination: Ipv4Addr,
    /// The bandwidth, as the bits of a float.
    pub bandwidth_bits: u32,
    pub metrics: Vec<Metric>,
    /// The IRO's body, empty without one.
    pub include: &'a [u8],
    /// The XRO's subobjects, empty without one.
    pub exclude: &'a [u8],
}

impl<'a> Pcreq<'a> {
    /// The PCReq that carries a request. It has no place for the ingress; the
    /// bound is a METRIC of type TE.
    pub fn of(request_id: u32, request: &Request<'a>) -> Self {
        let metric = |bound| Metric::new(Metric::TE, Metric::BOUND, bound);
        Pcreq {
            request_id,
            rp_flags: 0,
            source: request.source,
            destination: request.destination,
            bandwidth_bits: request.bandwidth.to_bits(),
            metrics: request.bound.map(metric).into_iter().collect(),
            include: request.include,
            exclude: request.exclude,
        }
    }

    /// The request that it carries, put to this ingress domain.
    pub fn request(&self, ingress: u16) -> Request<'a> {
        Request {
            ingress,
            source: self.source,
            destination: self.destination,
            include: self.include,
            exclude: self.exclude,
            bandwidth: self.bandwidth(),
            bound: self.bound(),
        }
    }

    pub fn bandwidth(&self) -> f32 {
        f32::from_bits(self.bandwidth_bits)
    }

    /// The value of the first METRIC that is a bound, whatever its type.
    pub fn bound(&self) -> Option<f32> {
        let is_bound = |metric: &&Metric| metric.flags & Metric::BOUND != 0;
        self.metrics.iter().find(is_bound).map(Metric::value)
    }
}

/// What a PCReq asks.
pub fn read_pcreq(message: &[u8]) -> Result<Pcreq<'_>, Refusal> {
    let mut room = Parts::room();
    let mut numbers = [0; 11];
    let number = calls::read_pcreq(message, &mut room, &mut numbers);
    let [place, request_id, rp_flags, source, destination, bandwidth_bits, metrics, lists @ ..] =
        numbers;
    unless_refused(Call::ReadPcreq, number, place)?;
    let [include, include_length, exclude, exclude_length] = lists.map(|number| number as usize);
    Ok(Pcreq {
        request_id,
        rp_flags,
        source: source.into(),
        destination: destination.into(),
        bandwidth_bits,
        metrics: room.first(metrics),
        include: &message[include..][..include_length],
        exclude: &message[exclude..][..exclude_length],
    })
}

/// The PCReq with these fields. This is the wrapper's own work, not a call of the
/// library, which then reads what was laid out: what it refuses is refused with
/// its number and place, so what is written reads back as the same fields, but
/// for RP flags over 0x3F, which are not written. What can't be laid out, since
/// it is over 65,535 bytes or a list's length is no multiple of 4, is 37.
pub fn write_pcreq(asked: &Pcreq) -> Result<Vec<u8>, Refusal> {
    let call = Call::WritePcreq;
    let message = laid_out(asked);
    let lists = [asked.include, asked.exclude];
    if message.len() > MOST_BYTES || lists.iter().any(|list| list.len() % 4 != 0) {
        return Err(Refusal {
            number: 37,
            place: 0,
            call,
        });
    }
    let mut numbers = [0; 11];
    match calls::read_pcreq(&message, &mut Parts::of(&[]), &mut numbers) {
        // No room is lent for METRICs, and 34 is told when all else is right.
        34 => {}
        number => unless_refused(call, number, numbers[0])?,
    }
    Ok(message)
}

/// RP, END-POINTS, BANDWIDTH, METRICs, IRO, XRO; what is longer than a message
/// can be says a wrong length.
fn laid_out(asked: &Pcreq) -> Vec<u8> {
    let word = u32::to_be_bytes;
    let ends = [asked.source.octets(), asked.destination.octets()];
    let mut objects = vec![
        object(
            2,
            &[word(asked.rp_flags & 0x3F), word(asked.request_id)].concat(),
        ),
        object(4, &ends.concat()),
    ];
    if asked.bandwidth_bits != 0 {
        objects.push(object(5, &word(asked.bandwidth_bits)));
    }
    for metric in &asked.metrics {
        let what = [0, 0, metric.flags, metric.kind];
        objects.push(object(6, &[what, word(metric.bits)].concat()));
    }
    if !asked.include.is_empty() {
        objects.push(object(10, asked.include));
    }
    if !asked.exclude.is_empty() {
        objects.push(object(17, &[&[0; 4], asked.exclude].concat()));
    }
    framed(0x20, 3, &objects.concat())
}

/// An object of type 1 with P set.
fn object(class: u8, body: &[u8]) -> Vec<u8> {
    framed(class, 0x12, body)
}

fn framed(first: u8, second: u8, body: &[u8]) -> Vec<u8> {
    let [high, low] = ((4 + body.len()) as u16).to_be_bytes();
    [&[first, second, high, low], body].concat()
}

/// The destination of the first END-POINTS, by which a path's end is known; any
/// value where there is none, since the call then refuses.
pub(crate) fn destination_of(message: &[u8]) -> u32 {
    let mut rest = message.get(4..).unwrap_or_default();
    while let [class, kind, high, low, _, _, _, _, a, b, c, d, ..] = *rest {
        let length = u16::from_be_bytes([high, low]).into();
        match (class, kind >> 4) {
            (4, 1) => return u32::from_be_bytes([a, b, c, d]),
            _ if length < 4 => break,
            _ => rest = rest.get(length..).unwrap_or_default(),
        }
    }
    0
}
