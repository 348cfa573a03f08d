//! Messages: a PCReq read with lists as long as they may be, and a PCRep of the
//! longest path written and read; then a PCRep as long as a message may be. Both
//! programs are called through a pointer, since these calls are so short that it
//! would count if one of them became a part of the loop that times it.

use crate::race::race;
use reference::Reply;
use std::cell::RefCell;
use std::hint::black_box;
use tests::by_hand::messages::{bandwidth, end_points, iro, message, metric, rp, xro, B, C, PCREQ};
use tests::lists::excluded;
use tests::pcrep::{read_pcrep, write_pcrep};
use tests::pcreq::read_pcreq;

/// 17 addresses are the longest path, 8,187 with a METRIC the longest message.
const PATHS: [(usize, &str); 2] = [(17, "17 addresses"), (8_187, "8,187 addresses")];

/// `include` is a list of 1,024 bytes.
pub fn messages(include: &[u8]) {
    let exclude: Vec<u8> = (0..128)
        .flat_map(|i| excluded(0xCB00_7100 + i, 32))
        .collect();
    assert_eq!((include.len(), exclude.len()), (1_024, 1_024));
    let whole = message(
        PCREQ,
        &[
            rp(1, 0),
            end_points(0xC000_0201, 0xC000_02FE),
            bandwidth(0x447A_0000),
            metric(1, 0, 0x4040_0000),
            metric(2, B, 0x4160_0000),
            metric(3, 0, 0x4080_0000),
            iro(include),
            xro(&exclude),
        ],
    );
    race_read_pcreq("read_pcreq, two lists of 1,024 bytes", &whole);
    for (count, name) in PATHS {
        let addresses: Vec<u32> = (0..count as u32).map(|i| 0xC000_0200 + i).collect();
        let reply = Reply {
            request_id: 1,
            rp_flags: 0,
            found: true,
            addresses: &addresses,
            nature: 0,
            c_flag: false,
            kinds: &[2],
            flags: &[C],
            values: &[0x4160_0000],
        };
        race_write_pcrep(&format!("write_pcrep, {name}"), &reply);
        let mut out = vec![0; 65_536];
        let (_, length) = written(reference::write_pcrep, &reply, &mut out);
        race_read_pcrep(&format!("read_pcrep, {name}"), &out[..length], count);
    }
}

type ReadPcReq = fn(&[u8], &mut [u8], &mut [u8], &mut [u32], &mut [u32; 11]) -> u32;

fn race_read_pcreq(name: &str, message: &[u8]) {
    let by = |call: ReadPcReq| {
        let call = black_box(call);
        move || {
            let (mut kinds, mut flags, mut values) = ([0; 4], [0; 4], [0; 4]);
            let mut numbers = [0; 11];
            let number = call(message, &mut kinds, &mut flags, &mut values, &mut numbers);
            assert_eq!(number, 0);
            (numbers, kinds, flags, values)
        }
    };
    race(name, by(read_pcreq), by(reference::read_pcreq));
}

type WritePcRep = fn(&Reply, &mut [u8], &mut [u32; 2]) -> u32;

fn written(call: WritePcRep, reply: &Reply, out: &mut [u8]) -> (u32, usize) {
    let mut numbers = [0; 2];
    let number = call(reply, out, &mut numbers);
    assert_eq!(number, 0);
    (number, numbers[1] as usize)
}

/// Into a buffer that is there before: what is timed is the writing.
fn race_write_pcrep(name: &str, reply: &Reply) {
    let bytes = |call| {
        let mut out = vec![0; 65_536];
        written(call, reply, &mut out);
        out
    };
    assert_eq!(bytes(write_pcrep), bytes(reference::write_pcrep), "{name}");
    let by = |call: WritePcRep| {
        let call = black_box(call);
        let out = RefCell::new(vec![0; 65_536]);
        move || written(call, reply, &mut out.borrow_mut())
    };
    race(name, by(write_pcrep), by(reference::write_pcrep));
}

type ReadPcRep = fn(&[u8], &mut [u32], &mut [u8], &mut [u8], &mut [u32], &mut [u32; 8]) -> u32;

/// Into a buffer that is there before, as for the writer.
fn race_read_pcrep(name: &str, message: &[u8], count: usize) {
    let read = |call: ReadPcRep, addresses: &mut [u32]| {
        let (mut kinds, mut flags, mut values) = ([0; 1], [0; 1], [0; 1]);
        let mut numbers = [0; 8];
        let number = call(
            message,
            addresses,
            &mut kinds,
            &mut flags,
            &mut values,
            &mut numbers,
        );
        assert_eq!((number, numbers[6] as usize), (0, count));
        (numbers, kinds, flags, values)
    };
    let path = |call| {
        let mut addresses = vec![0; count];
        read(call, &mut addresses);
        addresses
    };
    assert_eq!(path(read_pcrep), path(reference::read_pcrep), "{name}");
    let by = |call: ReadPcRep| {
        let call = black_box(call);
        let addresses = RefCell::new(vec![0; count]);
        move || read(call, &mut addresses.borrow_mut())
    };
    race(name, by(read_pcrep), by(reference::read_pcrep));
}
