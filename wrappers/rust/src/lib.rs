//! Yachayniq for Rust: profiles, requests, trees, shortest paths and PCEP
//! messages.
//!
//! ```no_run
//! # use yachayniq::{Profile, Request};
//! # fn main() -> Result<(), Box<dyn std::error::Error>> {
//! let profile = Profile::new(std::fs::read("examples/w.dsp")?)?;
//! let request = Request {
//!     include: &[32, 4, 0xFB, 0xF1, 32, 4, 0xFB, 0xF2], // AS 64497, AS 64498
//!     bandwidth: 100.0,
//!     ..Request::new("192.0.2.1".parse()?, "192.0.2.99".parse()?)
//! };
//! for path in profile.paths(&request)? {
//!     println!("{:?} total {}", path.addresses, path.total);
//! }
//! # Ok(())
//! # }
//! ```
//!
//! What the library refuses is a `Refusal` with its number and place
//! (`include/yachayniq.h` lists them), which displays what they mean.
//!
//! An exclusion with X set is only desired: if there is one, in the exclude list
//! or in an EXRS of the include list, and no path keeps the bound with all
//! exclusions, only those with X clear count, and the tree and the paths are of
//! round 2, else of round 1.
//!
//! An EXRS excludes for one domain of the sequence alone. Here AS 64497 isn't
//! entered through 192.0.2.12:
//!
//! ```no_run
//! # use yachayniq::{write_exrs, Excluded, Profile, Stop};
//! # fn main() -> Result<(), Box<dyn std::error::Error>> {
//! # let profile = Profile::new(std::fs::read("examples/w.dsp")?)?;
//! let exrs = write_exrs(&[Excluded::node("192.0.2.12".parse()?).demanded()])?;
//! let by_64497 = Stop { exrs, ..Stop::new(1) };
//! let include = profile.write_list(&[Stop::new(0), by_64497, Stop::new(2)])?;
//! # Ok(())
//! # }
//! ```

use std::net::Ipv4Addr;

mod calls;
mod exrs;
mod lists;
mod messages;
mod metrics;
mod numbers;
mod paths;
mod pcrep;
mod pcreq;
mod refusal;
mod series;
mod tree;

pub use exrs::{read_exrs, write_exrs, Excluded, Exclusion, ExrsError};
pub use lists::Stop;
pub use messages::PcreqPaths;
pub use metrics::Metric;
pub use numbers::Call;
pub use paths::{Path, Paths};
pub use pcrep::{read_pcrep, write_pcrep, Answer, Pcrep};
pub use pcreq::{read_pcreq, write_pcreq, Pcreq};
pub use refusal::Refusal;
pub use series::Ask;
pub use tree::{Entry, Tree};

use refusal::unless_refused;

/// What is asked of a profile: a path from source to destination.
#[derive(Clone, Copy, Debug)]
pub struct Request<'a> {
    /// The index of the domain that the source is in.
    pub ingress: u16,
    pub source: Ipv4Addr,
    pub destination: Ipv4Addr,
    /// The domains to cross after it: the body of an IRO.
    pub include: &'a [u8],
    /// What to leave out: the subobjects of an XRO.
    pub exclude: &'a [u8],
    /// The least bandwidth that a hop must have.
    pub bandwidth: f32,
    /// The most that a path may cost, if that counts.
    pub bound: Option<f32>,
}

impl Request<'_> {
    /// A request inside domain 0, with empty lists, no bandwidth and no bound.
    pub fn new(source: Ipv4Addr, destination: Ipv4Addr) -> Self {
        Request {
            ingress: 0,
            source,
            destination,
            include: &[],
            exclude: &[],
            bandwidth: 0.0,
            bound: None,
        }
    }
}

/// Whether these bytes are a profile.
pub fn check_profile(bytes: &[u8]) -> Result<(), Refusal> {
    let mut place = [0];
    let number = calls::check_profile(bytes, &mut place);
    unless_refused(Call::CheckProfile, number, place[0])
}

/// A profile that was accepted.
#[derive(Clone, Debug)]
pub struct Profile(Vec<u8>);

impl Profile {
    pub fn new(bytes: impl Into<Vec<u8>>) -> Result<Profile, Refusal> {
        let bytes = bytes.into();
        check_profile(&bytes)?;
        Ok(Profile(bytes))
    }
}
