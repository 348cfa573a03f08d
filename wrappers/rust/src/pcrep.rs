//! PCRep messages: made for a PCReq, written and read.

use crate::calls::messages as calls;
use crate::metrics::Parts;
use crate::pcreq::MOST_BYTES;
use crate::refusal::unless_refused;
use crate::{Call, Metric, Path, Pcreq, Refusal};
use std::net::Ipv4Addr;

/// What a message can hold.
const MOST_ERO_ADDRESSES: usize = 8_189;

/// What a PCRep answers.
#[derive(Clone, Debug, PartialEq, Eq)]
pub struct Pcrep {
    pub request_id: u32,
    /// As in a `Pcreq`; no other bit is written.
    pub rp_flags: u32,
    pub answer: Answer,
    pub metrics: Vec<Metric>,
}

impl Pcrep {
    /// The reply with a path, and its total as a METRIC: TE, computed.
    pub fn of(asked: &Pcreq, path: &Path) -> Self {
        let total = Metric::new(Metric::TE, Metric::COMPUTED, path.total_float);
        Pcrep {
            answer: Answer::Path(path.addresses.clone()),
            metrics: vec![total],
            ..Pcrep::none(asked)
        }
    }

    /// The reply that there is no path: nature of issue 0, C clear, no METRIC.
    pub fn none(asked: &Pcreq) -> Self {
        Pcrep {
            request_id: asked.request_id,
            rp_flags: 0,
            answer: Answer::NoPath {
                nature: 0,
                c: false,
            },
            metrics: Vec::new(),
        }
    }
}

/// A path, an ERO; or a NO-PATH, with its nature of issue and its flag C.
#[derive(Clone, Debug, PartialEq, Eq)]
pub enum Answer {
    Path(Vec<Ipv4Addr>),
    NoPath { nature: u8, c: bool },
}

/// The reply as a PCRep.
pub fn write_pcrep(reply: &Pcrep) -> Result<Vec<u8>, Refusal> {
    let addresses: Vec<u32> = match &reply.answer {
        Answer::Path(addresses) => addresses.iter().copied().map(u32::from).collect(),
        Answer::NoPath { .. } => Vec::new(),
    };
    let metrics = Parts::of(&reply.metrics);
    let mut message = vec![0; MOST_BYTES];
    let mut numbers = [0; 2];
    let number = calls::write_pcrep(reply, &addresses, &metrics, &mut message, &mut numbers);
    let [place, length] = numbers;
    unless_refused(Call::WritePcrep, number, place)?;
    message.truncate(length as usize);
    Ok(message)
}

/// What a PCRep answers.
pub fn read_pcrep(message: &[u8]) -> Result<Pcrep, Refusal> {
    let mut addresses = vec![0; MOST_ERO_ADDRESSES];
    let mut room = Parts::room();
    let mut numbers = [0; 8];
    let number = calls::read_pcrep(message, &mut addresses, &mut room, &mut numbers);
    let [place, request_id, rp_flags, is_path, nature, c, count, metrics] = numbers;
    unless_refused(Call::ReadPcrep, number, place)?;
    addresses.truncate(count as usize);
    Ok(Pcrep {
        request_id,
        rp_flags,
        answer: match is_path {
            1 => Answer::Path(addresses.into_iter().map(Ipv4Addr::from).collect()),
            _ => Answer::NoPath {
                nature: nature as u8,
                c: c == 1,
            },
        },
        metrics: room.first(metrics),
    })
}
