//! A PCRep: the C calls, and one of them made by both programs.

use crate::by_hand::messages::{ero, message, metric, no_path, rp, PCREP};
use crate::compare::{compare, Answer, Case, Lent};
use crate::metrics::{self, gather, MetricBuffers};
use reference::generate::{PcRepFields, Told};
use reference::Reply;
use std::fmt::Display;

extern "C" {
    fn yq_write_pcrep(
        request_id: u32,
        rp_flags: u32,
        found: bool,
        addresses: *const u32,
        addresses_count: usize,
        nature: u8,
        c_flag: bool,
        kinds: *const u8,
        kinds_count: usize,
        flags: *const u8,
        flags_count: usize,
        values: *const u32,
        values_count: usize,
        out: *mut u8,
        out_count: usize,
        numbers: *mut u32,
    ) -> u32;

    fn yq_read_pcrep(
        message: *const u8,
        message_count: usize,
        addresses: *mut u32,
        addresses_count: usize,
        kinds: *mut u8,
        kinds_count: usize,
        flags: *mut u8,
        flags_count: usize,
        values: *mut u32,
        values_count: usize,
        numbers: *mut u32,
    ) -> u32;
}

/// Writes a PCRep. `numbers`: place, how many bytes.
pub fn write_pcrep(reply: &Reply, out: &mut [u8], numbers: &mut [u32; 2]) -> u32 {
    // SAFETY: the call reads the four lists and writes no further than the
    // buffer and the array's two numbers.
    unsafe {
        yq_write_pcrep(
            reply.request_id,
            reply.rp_flags,
            reply.found,
            reply.addresses.as_ptr(),
            reply.addresses.len(),
            reply.nature,
            reply.c_flag,
            reply.kinds.as_ptr(),
            reply.kinds.len(),
            reply.flags.as_ptr(),
            reply.flags.len(),
            reply.values.as_ptr(),
            reply.values.len(),
            out.as_mut_ptr(),
            out.len(),
            numbers.as_mut_ptr(),
        )
    }
}

/// Reads a PCRep. `numbers`: place, request-ID, RP flags, whether there is a
/// path, nature of issue, C, how many addresses, how many METRICs.
pub fn read_pcrep(
    message: &[u8],
    addresses: &mut [u32],
    kinds: &mut [u8],
    flags: &mut [u8],
    values: &mut [u32],
    numbers: &mut [u32; 8],
) -> u32 {
    // SAFETY: the call reads the message and writes no further than the four
    // buffers and the array's eight numbers.
    unsafe {
        yq_read_pcrep(
            message.as_ptr(),
            message.len(),
            addresses.as_mut_ptr(),
            addresses.len(),
            kinds.as_mut_ptr(),
            kinds.len(),
            flags.as_mut_ptr(),
            flags.len(),
            values.as_mut_ptr(),
            values.len(),
            numbers.as_mut_ptr(),
        )
    }
}

/// Addresses, then METRICs.
pub type Buffers = (Lent<u32>, MetricBuffers);

/// Buffers of these capacities, filled with what no test here writes.
pub fn buffers([addresses, kinds, flags, values]: [usize; 4]) -> Buffers {
    (
        Lent::new(&vec![0xAAAA_AAAA; addresses]),
        metrics::buffers([kinds, flags, values]),
    )
}

/// A message to be read, and the buffers for what it says.
pub struct ReadPcRep<'a> {
    pub message: &'a [u8],
    pub buffers: Buffers,
}

impl Case for ReadPcRep<'_> {
    type Call = fn(&[u8], &mut [u32], &mut [u8], &mut [u8], &mut [u32], &mut [u32; 8]) -> u32;
    type Answer = Answer<8, Buffers>;

    const LIBRARY: Self::Call = read_pcrep;
    const REFERENCE: Self::Call = reference::read_pcrep;

    fn answer(&self, call: Self::Call) -> Self::Answer {
        Answer::of(
            self.buffers.clone(),
            |(addresses, (kinds, flags, values)), numbers| {
                call(
                    self.message,
                    addresses.buffer(),
                    kinds.buffer(),
                    flags.buffer(),
                    values.buffer(),
                    numbers,
                )
            },
        )
    }
}

impl ReadPcRep<'_> {
    /// The fields, or number and place, the same from both programs and held to
    /// what is true of every reading.
    #[track_caller]
    pub fn read(&self, which: impl Display) -> Result<PcRepFields, Told> {
        let answer = compare(self, &which);
        let [place, request_id, rp_flags, found, nature, c_flag, length, count] = answer.numbers;
        let (length, count) = (length as usize, count as usize);
        let (addresses, metrics) = &answer.buffers;
        let kept = addresses.kept_past(length, &self.buffers.0)
            && metrics::kept_past(metrics, count, &self.buffers.1);
        assert!(kept, "{which}: wrote more than the result: {answer:?}");
        if answer.number != 0 {
            assert_eq!(answer.numbers[1..], [0; 7], "{which}: {answer:?}");
            return Err(answer.verdict());
        }
        let said = match (found, nature, c_flag, length) {
            (1, 0, 0, _) => Ok(addresses.contents()[..length].to_vec()),
            (0, 0..=255, 0..=1, 0) => Err((nature as u8, c_flag == 1)),
            _ => panic!("{which}: neither a path nor none: {answer:?}"),
        };
        assert!(place == 0 && rp_flags < 0x40, "{which}: {answer:?}");
        Ok(PcRepFields {
            request_id,
            rp_flags,
            said,
            metrics: gather(metrics, count),
        })
    }
}

/// A reading with room for all that the message can say.
#[track_caller]
pub fn read(message: &[u8], which: impl Display) -> Result<PcRepFields, Told> {
    let (addresses, metrics) = (message.len() / 8 + 1, message.len() / 12 + 1);
    let buffers = buffers([addresses, metrics, metrics, metrics]);
    ReadPcRep { message, buffers }.read(which)
}

/// Fields to be written, and the buffer for the message.
pub struct WritePcRep<'a> {
    pub reply: Reply<'a>,
    pub out: Lent<u8>,
}

impl Case for WritePcRep<'_> {
    type Call = fn(&Reply, &mut [u8], &mut [u32; 2]) -> u32;
    type Answer = Answer<2, Lent<u8>>;

    const LIBRARY: Self::Call = write_pcrep;
    const REFERENCE: Self::Call = reference::write_pcrep;

    fn answer(&self, call: Self::Call) -> Self::Answer {
        Answer::of(self.out.clone(), |out, numbers| {
            call(&self.reply, out.buffer(), numbers)
        })
    }
}

impl WritePcRep<'_> {
    /// The message, or number and place, the same from both programs and held
    /// to what is true of every writing.
    #[track_caller]
    pub fn write(&self, which: impl Display) -> Result<Vec<u8>, Told> {
        let library = self.answer(Self::LIBRARY);
        let reference = self.answer(Self::REFERENCE);
        // Without the buffers, which are long.
        assert!(
            library == reference,
            "{which}: library {} {:?}, reference {} {:?}, or their buffers",
            library.number,
            library.numbers,
            reference.number,
            reference.numbers
        );
        let length = library.numbers[1] as usize;
        let kept = library.buffers.kept_past(length, &self.out);
        assert!(kept, "{which}: wrote more than the result");
        if library.number != 0 {
            assert_eq!(length, 0, "{which}");
            return Err(library.verdict());
        }
        let written = library.buffers.contents()[..length].to_vec();
        let shape = library.numbers[0] == 0 && length.is_multiple_of(4) && length <= 65_535;
        assert!(shape, "{which}: {length} bytes");
        Ok(written)
    }
}

/// A writing with room for the longest message.
#[track_caller]
pub fn write(reply: &Reply, which: impl Display) -> Result<Vec<u8>, Told> {
    let out = crate::writing::old_bytes(65_536);
    WritePcRep { reply: *reply, out }.write(which)
}

/// A reply that says nothing; tests change what they need.
pub const BASE: Reply = Reply {
    request_id: 1,
    rp_flags: 0,
    found: true,
    addresses: &[],
    nature: 0,
    c_flag: false,
    kinds: &[],
    flags: &[],
    values: &[],
};

/// The message that document 02 asks for, object by object.
pub fn expected(fields: &PcRepFields) -> Vec<u8> {
    let said = match &fields.said {
        Ok(addresses) => ero(addresses),
        Err((nature, c_flag)) => no_path(*nature, *c_flag),
    };
    let metrics = fields.metrics.iter().map(|&(k, f, v)| metric(k, f, v));
    let before = [rp(fields.request_id, fields.rp_flags), said];
    let objects: Vec<_> = before.into_iter().chain(metrics).collect();
    message(PCREP, &objects)
}
