//! A stand-in for the one file of `spdr` that is not at hand, vendor.rs. It decodes no XMP or EXPO profile, which Roostcord
//! does not do either, so on every image without the mark below the linter's findings are those of the base block alone.
//!
//! So that `check_rated_profile` can be run unchanged all the same, an image may carry one rated profile in a block of our
//! own, which no standard knows: at byte 640 the eight letters ROOSTCRD, then six 32-bit numbers, low byte first: cycle time,
//! tAA, tRCD, tRP, tRAS in picoseconds, and the data rate in MT/s.

use crate::error::DecodeError;
use crate::reader::SpdImage;
use crate::timing::Picoseconds;

const MARK: &[u8] = b"ROOSTCRD";
const OFF_MARK: usize = 640;
const OFF_NUMBERS: usize = OFF_MARK + MARK.len();
const NUMBERS: usize = 6;

/// A voltage in millivolts. Named only because lib.rs exports it.
#[derive(Debug, Clone, Copy, PartialEq, Eq)]
pub struct Millivolts(pub u32);

/// What `check_rated_profile` reads of a profile.
#[derive(Debug, Clone, Copy, PartialEq, Eq)]
pub struct RatedTimings {
    pub cycle_time: Picoseconds,
    pub taa: Picoseconds,
    pub trcd: Picoseconds,
    pub trp: Picoseconds,
    pub tras: Picoseconds,
    pub data_rate_mt_s: u32,
}

#[derive(Debug, Clone, Copy, PartialEq, Eq)]
pub struct XmpProfile {
    pub rated: RatedTimings,
}

#[derive(Debug, Clone, Copy, PartialEq, Eq)]
pub struct ExpoProfile {
    pub rated: RatedTimings,
}

#[derive(Debug, Clone, Copy, PartialEq, Eq)]
pub enum Xmp {
    Absent,
    Present { profile1: Option<XmpProfile>, profile2: Option<XmpProfile> },
}

#[derive(Debug, Clone, Copy, PartialEq, Eq)]
pub enum Expo {
    Absent,
    Present { profile1: Option<ExpoProfile>, profile2: Option<ExpoProfile> },
}

#[derive(Debug, Clone, Copy, PartialEq, Eq)]
pub struct VendorProfiles {
    pub xmp: Xmp,
    pub expo: Expo,
}

/// The profile of a marked image stands as the first XMP profile: the linter treats all four places alike.
pub fn decode_xmp(bytes: &[u8]) -> Result<Xmp, DecodeError> {
    Ok(match marked_profile(bytes) {
        Some(rated) => Xmp::Present { profile1: Some(XmpProfile { rated }), profile2: None },
        None => Xmp::Absent,
    })
}

/// No image has one, so that a marked image has exactly one profile.
pub fn decode_expo(_bytes: &[u8]) -> Result<Expo, DecodeError> {
    Ok(Expo::Absent)
}

pub fn decode_vendor_profiles(bytes: &[u8]) -> Result<VendorProfiles, DecodeError> {
    Ok(VendorProfiles { xmp: decode_xmp(bytes)?, expo: decode_expo(bytes)? })
}

/// The rated profile of a marked image; none without the mark or with a block that is cut off.
fn marked_profile(bytes: &[u8]) -> Option<RatedTimings> {
    let spd = SpdImage::new(bytes);
    if spd.slice(OFF_MARK, MARK.len()).ok()? != MARK {
        return None;
    }
    let block = spd.slice(OFF_NUMBERS, 4 * NUMBERS).ok()?;
    let number = |i: usize| {
        let mut four = [0u8; 4];
        four.copy_from_slice(&block[4 * i..4 * i + 4]);
        u32::from_le_bytes(four)
    };
    Some(RatedTimings {
        cycle_time: Picoseconds(number(0)),
        taa: Picoseconds(number(1)),
        trcd: Picoseconds(number(2)),
        trp: Picoseconds(number(3)),
        tras: Picoseconds(number(4)),
        data_rate_mt_s: number(5),
    })
}
