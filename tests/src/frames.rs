//! Damage to a message's frame, for a reader of either message. The answers are
//! worked out here from document 02's rules.

use crate::by_hand::messages::{message, object, P};
use crate::compare::Counts;
use reference::generate::Told;

/// A reader, what it knows, and a message that it takes.
pub struct Reader {
    pub message_type: u8,
    /// Class and type of the known objects.
    pub known: &'static [(u8, u8)],
    /// One of each known kind, right in all, so that a further one of any kind
    /// but METRIC doesn't count.
    pub objects: Vec<Vec<u8>>,
    /// Number and place; both are 0 where the message is read.
    pub read: fn(&[u8], String) -> Told,
}

/// Skipped by both readers: P is clear, and nothing is in it.
const SKIPPED: [u8; 4] = [99, 0x10, 0, 4];

/// Whether a known object may have this length, by document 02's readings.
fn own_length(class_type: (u8, u8), length: usize) -> bool {
    match class_type {
        (2, 1) => length >= 12,
        (3, 1) | (17, 1) => length >= 8,
        (4, 1) | (6, 1) => length == 12,
        (5, 1) => length == 8,
        _ => true,
    }
}

impl Reader {
    /// Anything in the frame of a message changed: each byte to each value.
    pub fn any_byte_changed(&self, messages: &[Vec<u8>], counts: &mut Counts) {
        for (index, whole) in messages.iter().enumerate() {
            assert_eq!((self.read)(whole, format!("message {index}")), (0, 0));
            for at in 0..whole.len() {
                let mut changed = whole.clone();
                for value in 0..=255 {
                    changed[at] = value;
                    let which = format!("message {index}, byte {at} set to {value}");
                    counts.add((self.read)(&changed, which));
                }
            }
        }
    }

    /// Cut anywhere, and other bytes after it, with the length that says so and
    /// with the one it had. How many cases that is.
    pub fn cut_and_filled(&self, messages: &[Vec<u8>]) -> usize {
        let mut cases = 0;
        for (index, whole) in messages.iter().enumerate() {
            for length in 0..=whole.len() {
                for after in [&[][..], &[0], &[0; 4], &SKIPPED, &[0x55; 7], &[0xFF; 8]] {
                    let mut changed = [&whole[..length], after].concat();
                    let which = format!("message {index}, {length} bytes and {after:?}");
                    let said = (self.read)(&changed, which.clone());
                    let as_it_was = changed.len() == whole.len() || changed.len() < 4;
                    assert!(as_it_was || said == (36, 0), "{which}: {said:?}");
                    cases += 1;
                    if changed.len() >= 4 {
                        let count = changed.len() as u16;
                        changed[2..4].copy_from_slice(&count.to_be_bytes());
                        (self.read)(&changed, which);
                        cases += 1;
                    }
                }
            }
        }
        cases
    }

    /// What is told of an object of this kind, bits and length with `left`
    /// bytes up to the end of the message.
    fn told(&self, class_type: (u8, u8), bits: u8, length: usize, left: usize) -> Option<u32> {
        let known = self.known.contains(&class_type);
        let right = length >= 4 && length.is_multiple_of(4) && length <= left;
        if !right || known && !own_length(class_type, length) {
            Some(37)
        } else if !known && bits & P != 0 {
            Some(38)
        } else {
            None
        }
    }

    /// Objects of every class and type, with each of the header's bits.
    pub fn every_class_and_type(&self, counts: &mut Counts) {
        for class in 0..=255 {
            for object_type in 0..16 {
                for bits in 0..16 {
                    let body = SKIPPED.repeat(2);
                    let one = object(class, object_type, bits, &body);
                    let which = format!("{class}/{object_type}, bits {bits}");
                    let told = self.told((class, object_type), bits, 12, 12);
                    self.after_the_others(one, told, which, counts);
                }
            }
        }
    }

    /// The object after all that are needed, with this said of it.
    fn after_the_others(
        &self,
        one: Vec<u8>,
        told: Option<u32>,
        which: String,
        counts: &mut Counts,
    ) {
        let place = 4 + self.objects.concat().len() as u32;
        let objects = [&self.objects[..], &[one]].concat();
        let said = (self.read)(&message(self.message_type, &objects), which.clone());
        let expected = told.map_or((0, 0), |number| (number, place));
        assert_eq!(said, expected, "{which}");
        counts.add(said);
    }

    /// Every length that an object can give itself, of each known kind and of
    /// some others, with 40 bytes up to the end. What lies behind a shorter one
    /// is skipped.
    pub fn every_length(&self, counts: &mut Counts) {
        let others = [(2, 2), (3, 2), (99, 1), (0, 0), (255, 15), (10, 3)];
        for &(class, object_type) in self.known.iter().chain(&others) {
            for bits in [0, P] {
                for length in (0..64).chain([100, 255, 256, 260, 4_096, 65_532, 65_535]) {
                    let mut one = object(class, object_type, bits, &SKIPPED.repeat(9));
                    one[2..4].copy_from_slice(&(length as u16).to_be_bytes());
                    let which = format!("{class}/{object_type}, bits {bits}, length {length}");
                    let told = self.told((class, object_type), bits, length, 40);
                    self.after_the_others(one, told, which, counts);
                }
            }
        }
    }

    /// 37 and 38 at the place of each object, with faults of either kind after
    /// it, which aren't told.
    pub fn each_refusal_at_each_offset(&self, counts: &mut Counts) {
        let faults = [
            (37, vec![99, 0x10, 0, 0]),
            (37, vec![2, 0x12, 0, 8, 0, 0, 0, 0]),
            (37, vec![99, 0x12, 0xFF, 0xFC]),
            (37, vec![6, 0x10, 0, 16, 0, 0, 0, 0, 0, 0, 0, 0, 0, 0, 0, 0]),
            (38, vec![99, 0x12, 0, 4]),
            (38, vec![2, 0x23, 0, 8, 0, 0, 0, 0]),
        ];
        for at in 0..=self.objects.len() {
            for skipped in 0..8 {
                for (number, wrong) in &faults {
                    for (_, later) in [&(0, Vec::new())].into_iter().chain(&faults) {
                        let mut objects = self.objects.clone();
                        objects.insert(at, SKIPPED.repeat(skipped));
                        let place = 4 + objects[..=at].concat().len() as u32;
                        objects.insert(at + 1, [&wrong[..], later].concat());
                        let bytes = message(self.message_type, &objects);
                        let which = format!("{wrong:?} then {later:?} as object {at}");
                        let said = (self.read)(&bytes, which.clone());
                        assert_eq!(said, (*number, place), "{which}");
                        counts.add(said);
                    }
                }
            }
        }
    }

    /// Every header of four bytes whose message is else right, byte by byte.
    pub fn every_header(&self, counts: &mut Counts) {
        let right = message(self.message_type, &self.objects);
        let length = right.len() as u16;
        for first in 0..=255 {
            for second in 0..=255 {
                let fine = first >> 5 == 1 && second == self.message_type;
                self.header(&right, [first, second], length, fine, counts);
            }
        }
        for said in 0..=65_535 {
            let fine = said == length;
            self.header(&right, [0x20, self.message_type], said, fine, counts);
        }
    }

    fn header(&self, right: &[u8], [a, b]: [u8; 2], length: u16, fine: bool, counts: &mut Counts) {
        let [high, low] = length.to_be_bytes();
        let bytes = [&[a, b, high, low], &right[4..]].concat();
        let which = format!("header {:02X?}", &bytes[..4]);
        let said = (self.read)(&bytes, which.clone());
        assert_eq!(said, if fine { (0, 0) } else { (36, 0) }, "{which}");
        counts.add(said);
    }

    /// Without each one of the objects that must be there, and without both.
    pub fn missing(&self, needed: &[(&[(u8, u8)], u32)], counts: &mut Counts) {
        let class_type = |piece: &Vec<u8>| (piece[0], piece[1] >> 4);
        for without in 1..1 << needed.len() {
            let gone = |index: &usize| without >> index & 1 == 1;
            let lacking: Vec<usize> = (0..needed.len()).filter(gone).collect();
            let mut objects = self.objects.clone();
            objects.retain(|piece| {
                let of = |&index: &usize| needed[index].0.contains(&class_type(piece));
                !lacking.iter().any(of)
            });
            for turn in 0..objects.len() {
                objects.rotate_left(1);
                let which = format!("without {lacking:?}, turned {turn}");
                let said = (self.read)(&message(self.message_type, &objects), which.clone());
                assert_eq!(said, (needed[lacking[0]].1, 0), "{which}");
                counts.add(said);
            }
        }
    }
}
