//! Damaged bytes: flips, truncations, insertions, swaps, duplicated ranges.

use super::random::Random;

/// Bytes that matter often: kinds, small numbers, ends of ranges.
fn likely(rng: &mut Random) -> u8 {
    match rng.below(4) {
        0 => rng.byte(),
        1 => rng.pick(&[0, 1, 2, 3, 254, 255]),
        2 => rng.range(4, 20) as u8,
        _ => rng.range(32, 44) as u8,
    }
}

/// Damages bytes in one to four places.
pub fn damage(rng: &mut Random, bytes: &mut Vec<u8>) {
    for _ in 0..rng.range(1, 4) {
        if bytes.is_empty() {
            bytes.push(likely(rng));
            continue;
        }
        once(rng, bytes);
    }
}

fn once(rng: &mut Random, bytes: &mut Vec<u8>) {
    let at = rng.below(bytes.len());
    let other = rng.below(bytes.len());
    let (low, high) = (at.min(other), at.max(other));
    match rng.below(8) {
        0 => bytes[at] ^= 1 << rng.below(8),
        1 => bytes[at] = likely(rng),
        2 => bytes.truncate(at),
        3 => bytes.insert(at, likely(rng)),
        4 => bytes.swap(at, other),
        5 => {
            bytes.remove(at);
        }
        6 => {
            let range = bytes[low..(low + 8).min(high)].to_vec();
            bytes.splice(high..high, range);
        }
        _ => bytes[at] = bytes[at].wrapping_add(rng.pick(&[1, 255])),
    }
}

/// Random bytes, sometimes only those that matter often.
pub fn noise(rng: &mut Random) -> Vec<u8> {
    let most = rng.pick(&[4, 16, 64, 256]);
    let length = rng.below(most);
    match rng.below(3) {
        0 => rng.bytes(length),
        _ => {
            let tail: Vec<u8> = (0..length).map(|_| likely(rng)).collect();
            [vec![1], tail].concat()
        }
    }
}
