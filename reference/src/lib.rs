//! A path calculator written from document 01 and requests [1] and [3] to [6] of
//! document 02 alone, to be compared case by case with the proved library.
//!
//! The calls take and give what the C interface takes and gives, on
//! slices: each returns document 01's number and stores the other numbers in
//! `numbers`. On every number but 0 the place is stored, every other number is
//! 0, and no lent buffer is touched.
//!
//! `plain` finds the same answers by listing every path; `series` holds a run
//! of calls against document 01's book; `generate` makes cases from a seed.

mod calls;
mod check;
mod exclusion;
mod exrs;
mod floats;
mod one_pass;
mod outcome;
mod paths;
mod pcep;
pub mod plain;
mod profile;
mod request;
mod reserved;
mod rounds;
mod sequence;
mod subobject;
mod tree;
mod writer;

pub mod generate;
pub mod series;

pub use calls::{check_profile, first, next, read_include, tree, write_list};
pub use exclusion::{Exclusion, Stretch};
pub use floats::Exact;
pub use one_pass::one_pass_tree;
pub use outcome::NotDone;
pub use paths::ShortestPaths;
pub use pcep::{
    pcreq_first, pcreq_next, pcreq_tree, read_pcrep, read_pcreq, write_pcrep, PcReq, Reply,
};
pub use profile::{Domain, Hop, Profile};
pub use request::{Question, Request};
pub use sequence::Stop;
pub use series::{reference_series, series, Call, Outcome};
