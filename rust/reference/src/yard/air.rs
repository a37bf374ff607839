//! The air: 65,536 lent bytes, frame k at the bytes 32 × k to 32 × k + 31.

use super::{Yard, BAD_AIR, NOT_ON_AIR};
use crate::frame::FRAME_LENGTH;

/// Number of bytes of the air.
pub const AIR_LENGTH: usize = 65_536;

/// The air as the places of its frames, by their numbers.
pub(super) type Air = [[u8; FRAME_LENGTH]];

/// The places of the frames, or refusal 13.
pub(super) fn whole_air(air: &mut [u8]) -> Result<&mut Air, u8> {
    if air.len() != AIR_LENGTH {
        return Err(BAD_AIR);
    }
    Ok(air.as_chunks_mut().0)
}

impl Yard {
    /// The bytes of a frame, or an empty stretch when 13 or 25 holds.
    pub fn frame_on_air<'a>(&self, air: &'a [u8], frame: usize) -> &'a [u8] {
        match self.judge_air_and_frame(air, frame) {
            Ok(()) => &air[FRAME_LENGTH * frame..][..FRAME_LENGTH],
            Err(_) => &air[..0],
        }
    }

    /// Why `frame_on_air` gives an empty stretch: 13 or 25; 0 if it does not.
    pub fn frame_on_air_refusal(&self, air: &[u8], frame: usize) -> u8 {
        self.judge_air_and_frame(air, frame).err().unwrap_or(0)
    }

    fn judge_air_and_frame(&self, air: &[u8], frame: usize) -> Result<(), u8> {
        if air.len() != AIR_LENGTH {
            return Err(BAD_AIR);
        }
        self.judge_frame(frame)
    }

    /// Refusal 25: judged by the count of frames, not by the bytes.
    pub(super) fn judge_frame(&self, frame: usize) -> Result<(), u8> {
        if frame < usize::from(self.frames) {
            Ok(())
        } else {
            Err(NOT_ON_AIR)
        }
    }
}
