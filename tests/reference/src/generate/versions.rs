//! The versions that are drawn, for files and for line calls (document 02, request 5).

use super::Rng;
use crate::version::Version;

/// Either version.
pub fn version(rng: &mut Rng) -> Version {
    rng.pick(&Version::ALL)
}

/// The version that a line call is told of a file of this version: mostly that one, sometimes the
/// other, and one time in 20 neither. Cut to 8 or 16 bits some of these would be 5 or 7, and one is
/// both digits.
pub fn told(rng: &mut Rng, version: Version) -> u32 {
    const NEITHER: &[u32] = &[
        0,
        1,
        4,
        6,
        8,
        10,
        55,
        57,
        70,
        77,
        255,
        256,
        256 + 5,
        256 + 7,
        65_536 + 5,
        65_536 + 7,
        u32::MAX - 250,
        u32::MAX,
    ];
    match rng.below(40) {
        0..=1 => rng.pick(NEITHER),
        2..=7 => rng.pick(&Version::ALL).number(),
        _ => version.number(),
    }
}
