//! Model S and its plan as bytes, for calls that are worked out by hand.

use super::Stroke;

/// Model S.
pub const S: [u8; 75] = [
    0, 0, 0, 75, 1, 1, 2, 3, 0, 8, // length, version, c, n, m, H
    0, 0, 0, 0, 0, 0, 0, 2, 0, 5, // thread 0
    0, 8, 0, 8, 0, 0, 0, 0, 0, 3, // thread 1
    0, 0, 1, 0, 2, 0, 0, 0, 0, 0, 0, 0, 0, 0, 0, // activity 0
    1, 0, 2, 0, 3, 0, 1, 0, 0, 0, 0, 0, 0, 0, 0, // activity 1
    1, 0, 1, 0, 1, 0, 0, 0, 0, 0, 2, 0, 0, 0, 1, // activity 2
];

/// S's plan. Row a begins at byte 17 + 4a, and the last byte of word t is byte 32 + 4t. Activity 0 has ticks 1 and 2, activity
/// 1 has 0 and 3, activity 2 has 5.
pub const S_PLAN: [u8; 61] = [
    0, 0, 0, 61, 1, 2, 3, 0, 8, // length, version, n, m, H
    0, 1, 0, 0, 0, 0, 0, 8, // release and period of each thread
    0, 1, 0, 3, 0, 0, 0, 4, 0, 5, 0, 6, // start and end of each activity
    0, 0, 0, 2, 0, 0, 0, 1, 0, 0, 0, 1, 0, 0, 0, 2, // ticks 0 to 3
    0, 0, 0, 0, 0, 0, 0, 4, 0, 0, 0, 0, 0, 0, 0, 0, // ticks 4 to 7
];

pub fn mark(activity: u32, tick: u32) -> Stroke {
    Stroke { marks: true, activity, tick }
}

pub fn clear(activity: u32, tick: u32) -> Stroke {
    Stroke { marks: false, activity, tick }
}

/// These bytes with others in some places.
pub fn put(bytes: &[u8], changes: &[(usize, u8)]) -> Vec<u8> {
    let mut bytes = bytes.to_vec();
    for &(at, byte) in changes {
        bytes[at] = byte;
    }
    bytes
}
