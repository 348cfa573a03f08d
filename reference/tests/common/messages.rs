//! PCEP messages and their objects, written out by hand.

pub const PCREQ: u8 = 3;
pub const PCREP: u8 = 4;

/// The bits of an object header's second byte after the type.
pub const P: u8 = 2;
pub const I: u8 = 1;

/// The flags of a METRIC that are assigned.
pub const B: u8 = 1;
pub const C: u8 = 2;

/// Bytes written as pairs of hex digits, with words after a # to each line.
pub fn hex(text: &str) -> Vec<u8> {
    let bytes = text
        .lines()
        .map(|line| line.split('#').next().unwrap_or(""));
    let pairs = bytes.flat_map(str::split_whitespace);
    let byte = |pair| u8::from_str_radix(pair, 16).expect("two hex digits");
    pairs.map(byte).collect()
}

/// A message of these objects, with the header that fits them.
pub fn message(message_type: u8, objects: &[Vec<u8>]) -> Vec<u8> {
    let body = objects.concat();
    let length = (4 + body.len()) as u16;
    let [high, low] = length.to_be_bytes();
    [&[0x20, message_type, high, low], &body[..]].concat()
}

/// An object; `bits` are the lower four of its header's second byte.
pub fn object(class: u8, object_type: u8, bits: u8, body: &[u8]) -> Vec<u8> {
    let length = (4 + body.len()) as u16;
    let [high, low] = length.to_be_bytes();
    [&[class, object_type << 4 | bits, high, low], body].concat()
}

fn words(words: &[u32]) -> Vec<u8> {
    words.iter().flat_map(|word| word.to_be_bytes()).collect()
}

pub fn rp(request_id: u32, flags: u32) -> Vec<u8> {
    object(2, 1, P, &words(&[flags, request_id]))
}

pub fn end_points(source: u32, destination: u32) -> Vec<u8> {
    object(4, 1, P, &words(&[source, destination]))
}

pub fn bandwidth(bits: u32) -> Vec<u8> {
    object(5, 1, 0, &words(&[bits]))
}

pub fn metric(kind: u8, flags: u8, bits: u32) -> Vec<u8> {
    let value = bits.to_be_bytes();
    object(6, 1, 0, &[&[0, 0, flags, kind], &value[..]].concat())
}

pub fn iro(list: &[u8]) -> Vec<u8> {
    object(10, 1, 0, list)
}

pub fn xro(list: &[u8]) -> Vec<u8> {
    object(17, 1, 0, &[&[0, 0, 0, 0], list].concat())
}

pub fn ero(addresses: &[u32]) -> Vec<u8> {
    let hop = |address: &u32| [&[1, 8], &address.to_be_bytes()[..], &[32, 0]].concat();
    let body: Vec<u8> = addresses.iter().flat_map(hop).collect();
    object(7, 1, 0, &body)
}

pub fn no_path(nature: u8, c_flag: bool) -> Vec<u8> {
    object(3, 1, 0, &[nature, u8::from(c_flag) << 7, 0, 0])
}

/// The object with other lower bits in its header's second byte.
pub fn with_bits(mut object: Vec<u8>, bits: u8) -> Vec<u8> {
    object[1] = object[1] & 0xF0 | bits;
    object
}

/// The object with these bytes after it and the length that counts them.
pub fn longer(object: &[u8], bytes: &[u8]) -> Vec<u8> {
    let mut object = [object, bytes].concat();
    let length = object.len() as u16;
    object[2..4].copy_from_slice(&length.to_be_bytes());
    object
}

/// The object cut to this many bytes, and the length that says so.
pub fn cut(object: &[u8], length: u8) -> Vec<u8> {
    longer(&object[..usize::from(length)], &[])
}

/// The object with another length in its header.
pub fn said_length(mut object: Vec<u8>, length: u16) -> Vec<u8> {
    object[2..4].copy_from_slice(&length.to_be_bytes());
    object
}
