//! What the tests share: document 01's profile and request, messages, and numbers
//! and fields that look like chance. No program uses all of it.
#![allow(dead_code)]

use std::net::Ipv4Addr;
use yachayniq::{Call, Metric, Pcreq, Profile, Refusal, Request};

pub const W: &[u8] = include_bytes!("../../../../examples/w.dsp");
pub const ONWARD: &[u8] = &[32, 4, 0xFB, 0xF1, 32, 4, 0xFB, 0xF2];
pub const S: Ipv4Addr = Ipv4Addr::new(192, 0, 2, 1);
pub const P: Ipv4Addr = Ipv4Addr::new(192, 0, 2, 11);
pub const Q: Ipv4Addr = Ipv4Addr::new(192, 0, 2, 12);
pub const T: Ipv4Addr = Ipv4Addr::new(192, 0, 2, 21);
pub const U: Ipv4Addr = Ipv4Addr::new(192, 0, 2, 22);
pub const Z: Ipv4Addr = Ipv4Addr::new(192, 0, 2, 99);
pub const EVERY: [[Ipv4Addr; 4]; 3] = [[S, P, U, Z], [S, Q, T, Z], [S, Q, U, Z]];

pub const RP: &str = "0212000C 00000000 00000007";
pub const ENDS: &str = "0412000C C0000201 C0000263";
pub const XRO: &str = "11120010 00000000 0108C000 020C2001";
pub const ASKED: &str = "20030030 0212000C 00000000 00000007 0412000C C0000201 C0000263 \
    05120008 42C80000 0A12000C 2004FBF1 2004FBF2";

pub fn w() -> Profile {
    Profile::new(W).expect("document 01's profile")
}

/// Document 01's request: S to Z by both other domains, bandwidth 100, no bound.
pub fn request() -> Request<'static> {
    Request {
        include: ONWARD,
        bandwidth: 100.0,
        ..Request::new(S, Z)
    }
}

/// The exclusion of a node, with this X.
pub fn without(x: u8, node: Ipv4Addr) -> [u8; 8] {
    let [a, b, c, d] = node.octets();
    [x | 1, 8, a, b, c, d, 32, 1]
}

pub fn refusal<T>(call: Call, number: u32, place: u32) -> Result<T, Refusal> {
    Err(Refusal {
        number,
        place,
        call,
    })
}

/// Of digits; what follows a # in a line is a comment.
pub fn bytes(hex: &str) -> Vec<u8> {
    let code = hex.lines().filter_map(|line| line.split('#').next());
    let digits = code
        .flat_map(str::chars)
        .filter_map(|digit| digit.to_digit(16));
    let digits: Vec<u32> = digits.collect();
    let byte = |pair: &[u32]| (16 * pair[0] + pair[1]) as u8;
    digits.chunks(2).map(byte).collect()
}

/// A message of this type with these objects.
pub fn message(kind: u8, objects: &[&str]) -> Vec<u8> {
    let body = bytes(&objects.concat());
    let [high, low] = (4 + body.len() as u16).to_be_bytes();
    [&[0x20, kind, high, low], &body[..]].concat()
}

pub fn pcreq(objects: &[&str]) -> Vec<u8> {
    message(3, objects)
}

pub fn pcrep(objects: &[&str]) -> Vec<u8> {
    message(4, objects)
}

/// The same numbers for the same seed (xorshift).
pub struct Drawn(u64);

impl Drawn {
    pub fn new(seed: u64) -> Self {
        Drawn(seed * 2 + 0x9E37_79B9_7F4A_7C15)
    }

    pub fn word(&mut self) -> u32 {
        self.0 ^= self.0 << 13;
        self.0 ^= self.0 >> 7;
        self.0 ^= self.0 << 17;
        (self.0 >> 32) as u32
    }

    pub fn byte(&mut self) -> u8 {
        self.word() as u8
    }

    pub fn below(&mut self, limit: u32) -> u32 {
        self.word() % limit
    }

    /// The bits of a float that is not negative, finite.
    pub fn float_bits(&mut self) -> u32 {
        self.below(0x7F80_0000)
    }

    pub fn one_of<T: Copy>(&mut self, things: &[T]) -> T {
        things[self.below(things.len() as u32) as usize]
    }

    /// An include list of right form, which may have EXRS.
    pub fn include(&mut self) -> Vec<u8> {
        let mut list = self.list(0);
        for _ in 0..self.below(3) {
            let (inside, after) = (self.list(0x80), self.list(0));
            let length = 4 + inside.len();
            if (5..=252).contains(&length) && list.len() + length + after.len() <= 1024 {
                list.extend([33, length as u8, 0, self.one_of(&[0, 9])]);
                list.extend([inside, after].concat());
            }
        }
        list
    }

    /// Subobjects of every type but EXRS, of right form in either list; of their
    /// top bits these may be set.
    pub fn list(&mut self, top: u8) -> Vec<u8> {
        let pieces: [&[u8]; 6] = [
            &[1, 8, 10, 0, 0, 1, 32, 1],
            &[5, 8, 9, 9, 0, 1, 2, 3],
            &[6, 8, 9, 9, 0, 0, 0, 4],
            &[32, 4, 0xFB, 0xF1],
            &[7, 8, 3, 9, 0x49, 0, 1, 0],
            &[7, 12, 5, 9, 1, 2, 3, 4, 5, 0, 0, 0],
        ];
        let most = self.one_of(&[5, 5, 5, 80]);
        let mut list = Vec::new();
        for _ in 0..self.below(most) {
            let piece = self.one_of(&pieces);
            list.push(piece[0] | self.byte() & top);
            list.extend(&piece[1..]);
        }
        list
    }

    /// Fields that can be written, with these lists.
    pub fn pcreq<'a>(&mut self, include: &'a [u8], exclude: &'a [u8]) -> Pcreq<'a> {
        Pcreq {
            request_id: self.word(),
            rp_flags: self.word(),
            source: self.word().into(),
            destination: self.word().into(),
            bandwidth_bits: self.below(3).min(1) * self.float_bits(),
            metrics: (0..self.below(5)).map(|_| self.metric()).collect(),
            include,
            exclude,
        }
    }

    fn metric(&mut self) -> Metric {
        Metric {
            kind: self.byte(),
            flags: self.byte(),
            bits: self.float_bits(),
        }
    }
}
