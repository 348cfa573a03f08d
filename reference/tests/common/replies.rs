//! PCReps by their fields: typed in by hand, read and written by the reference.

use super::{OLD, P, S, U, Z};
use reference::Reply;

pub const F14: u32 = 0x4160_0000;

#[derive(Clone, Debug, PartialEq, Eq)]
pub struct Fields {
    pub request_id: u32,
    pub rp_flags: u32,
    /// The path, or nature of issue and C.
    pub said: Result<Vec<u32>, (u8, bool)>,
    pub metrics: Vec<(u8, u8, u32)>,
}

/// Or number and place.
pub type Read = Result<Fields, (u32, u32)>;

/// A reading into buffers of these capacities: addresses, then METRICs.
pub fn read_into(message: &[u8], [room, kinds, flags, values]: [usize; 4]) -> Read {
    let (mut addresses, mut values) = (vec![OLD; room], vec![OLD; values]);
    let (mut kinds, mut flags) = (vec![0xAA; kinds], vec![0xAA; flags]);
    let mut numbers = [7; 8];
    let number = reference::read_pcrep(
        message,
        &mut addresses,
        &mut kinds,
        &mut flags,
        &mut values,
        &mut numbers,
    );
    let [place, request_id, rp_flags, found, nature, c_flag, length, count] = numbers;
    let (length, count) = (length as usize, count as usize);
    let words = addresses[length..].iter().chain(&values[count..]);
    assert!(words.copied().all(|word| word == OLD));
    let bytes = kinds[count..].iter().chain(&flags[count..]);
    assert!(bytes.copied().all(|byte| byte == 0xAA));
    if number != 0 {
        assert_eq!(numbers[1..], [0; 7]);
        return Err((number, place));
    }
    let said = match (found, nature, c_flag, length) {
        (1, 0, 0, _) => Ok(addresses[..length].to_vec()),
        (0, nature, c_flag @ 0..=1, 0) => Err((nature as u8, c_flag == 1)),
        _ => panic!("{numbers:?}"),
    };
    assert_eq!(place, 0);
    Ok(Fields {
        request_id,
        rp_flags,
        said,
        metrics: (0..count)
            .map(|i| (kinds[i], flags[i], values[i]))
            .collect(),
    })
}

/// A path, with all that isn't looked at set.
pub const PATH: &str = "
    3F 04 00 50                            # version 1, flags, PCRep, 80 bytes
    02 1D 00 14  FF FF FF D2  00 00 00 07  # RP: B 0x10, Pri 2; request-ID 7
                 00 01 00 04  DE AD BE EF  # a TLV
    07 1F 00 24                            # ERO
                 01 08 C0 00  02 01 20 00  # 192.0.2.1
                 01 08 C0 00  02 0B 20 FF  # 192.0.2.11
                 01 08 C0 00  02 16 20 01  # 192.0.2.22
                 01 08 C0 00  02 63 20 80  # 192.0.2.99
    06 1E 00 0C  FF FF FF 02  41 60 00 00  # METRIC: reserved, all flags, TE, 14.0
    63 9D 00 08  00 00 00 00               # class 99, type 9, P clear
";

/// What the writer makes of the same fields.
pub const WRITTEN: &str = "
    20 04 00 40                            # version 1, PCRep, 64 bytes
    02 12 00 0C  00 00 00 12  00 00 00 07  # RP: P set
    07 10 00 24                            # ERO
                 01 08 C0 00  02 01 20 00
                 01 08 C0 00  02 0B 20 00
                 01 08 C0 00  02 16 20 00
                 01 08 C0 00  02 63 20 00
    06 10 00 0C  00 00 FF 02  41 60 00 00  # METRIC
";

/// Without a path, with all that isn't looked at set.
pub const NONE: &str = "
    20 04 00 20                            # 32 bytes
    03 1D 00 10  03 FF FF FF               # NO-PATH: nature 3, C, other flags, reserved
                 00 01 00 04  00 00 00 01  # a TLV
    02 10 00 0C  00 00 00 21  00 00 00 08  # RP: O, Pri 1; request-ID 8
";

pub const NONE_WRITTEN: &str = "
    20 04 00 18                            # 24 bytes
    02 12 00 0C  00 00 00 21  00 00 00 08  # RP
    03 10 00 08  03 80 00 00               # NO-PATH: nature 3, C
";

pub fn spuz() -> Fields {
    Fields {
        request_id: 7,
        rp_flags: 0x12,
        said: Ok(vec![S, P, U, Z]),
        metrics: vec![(2, 0xFF, F14)],
    }
}

pub fn none() -> Fields {
    Fields {
        request_id: 8,
        rp_flags: 0x21,
        said: Err((3, true)),
        metrics: vec![],
    }
}

/// The message, or number and place.
pub type Written = Result<Vec<u8>, (u32, u32)>;

pub fn write_into(reply: &Reply, capacity: usize) -> Written {
    let (mut out, mut numbers) = (vec![0xAA; capacity], [7; 2]);
    let number = reference::write_pcrep(reply, &mut out, &mut numbers);
    let length = numbers[1] as usize;
    assert!(out[length..].iter().all(|&byte| byte == 0xAA));
    match number {
        0 => Ok(out[..length].to_vec()),
        _ => Err((number, numbers[0])),
    }
}

impl Fields {
    /// Something asked of the reply that has these fields.
    pub fn reply<T>(&self, asked: impl FnOnce(&Reply) -> T) -> T {
        let (nature, c_flag) = self.said.as_ref().err().copied().unwrap_or_default();
        let part = |of: fn(&(u8, u8, u32)) -> u8| self.metrics.iter().map(of).collect();
        let [kinds, flags]: [Vec<u8>; 2] = [part(|metric| metric.0), part(|metric| metric.1)];
        let values: Vec<u32> = self.metrics.iter().map(|metric| metric.2).collect();
        asked(&Reply {
            request_id: self.request_id,
            rp_flags: self.rp_flags,
            found: self.said.is_ok(),
            addresses: self.said.as_deref().unwrap_or_default(),
            nature,
            c_flag,
            kinds: &kinds,
            flags: &flags,
            values: &values,
        })
    }

    /// The message with these fields, with room to spare.
    pub fn write(&self) -> Written {
        self.reply(|reply| write_into(reply, 70_000))
    }
}
