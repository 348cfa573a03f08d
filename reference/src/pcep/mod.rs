//! PCEP messages (RFC 5440, for XRO RFC 5521), document 02's request [3]: a
//! PCReq is read, and answered like the request that it carries; a PCRep is
//! written and read.

mod calls;
mod frame;
mod metric;
mod pcrep;
mod pcreq;
mod reply;

pub use calls::{pcreq_first, pcreq_next, pcreq_tree, read_pcrep, read_pcreq, write_pcrep, PcReq};
pub use reply::Reply;
