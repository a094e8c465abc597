//! Bytes that were almost right.

use crate::random::Random;

/// Codes and limits of all forms.
const CODES: [u8; 17] = [0, 1, 2, 3, 4, 5, 6, 14, 15, 18, 19, 20, 21, 22, 63, 64, 255];

/// One change: cut, lengthened, a bit or byte changed, a count or length one more or less, a run of bytes taken out or
/// doubled.
pub fn damage(random: &mut Random, bytes: &mut Vec<u8>) {
    let length = bytes.len();
    let at = random.below(length.max(1) as u64) as usize;
    let end = length.min(at + 1 + random.below(8) as usize);
    match random.below(8) {
        0 => bytes.truncate(at),
        _ if bytes.is_empty() => bytes.push(random.next() as u8),
        1 => bytes.extend((0..=random.below(3)).map(|_| random.next() as u8)),
        2 => bytes[at] ^= 1 << random.below(8),
        3 => bytes[at] = random.next() as u8,
        4 => bytes[at] = bytes[at].wrapping_add(random.pick(&[1, 255])),
        5 => bytes[at] = random.pick(&CODES),
        6 => drop(bytes.drain(at..end)),
        _ => {
            let doubled = bytes[at..end].to_vec();
            bytes.splice(at..at, doubled);
        }
    }
}

/// Bytes that begin with a mark, often of a known version, and go on with codes and counts at random.
pub fn marked(random: &mut Random, mark: &[u8; 3]) -> Vec<u8> {
    let version = match random.below(10) {
        0 => random.next() as u8,
        _ => 1 + random.below(2) as u8,
    };
    let mut bytes = [mark.as_slice(), &[version, 0]].concat();
    for _ in 0..random.below(40) {
        bytes.push(match random.below(4) {
            0 => random.next() as u8,
            1 => random.pick(&CODES),
            _ => random.below(3) as u8,
        });
    }
    bytes
}
