//! The state image: a whole state in its bytes.

use std::fmt;

use crate::bits::{Packer, Unpacker};
use crate::state::State;

pub const IMAGE_BYTES: usize = 128;

const LAST_BYTE: u8 = 0xA5;

/// Why bytes of that length are no state image.
#[derive(Clone, Copy, Debug, PartialEq, Eq)]
pub enum ImageError {
    /// A bit after the last timer and before the last byte is not zero.
    Padding,
    /// The last byte is not 0xA5.
    LastByte(u8),
}

impl fmt::Display for ImageError {
    fn fmt(&self, f: &mut fmt::Formatter<'_>) -> fmt::Result {
        let last = IMAGE_BYTES - 1;
        match self {
            ImageError::Padding => write!(f, "a bit between the last timer and byte {last} is set"),
            ImageError::LastByte(byte) => {
                write!(f, "byte {last} is {byte:#04X}, not {LAST_BYTE:#04X}")
            }
        }
    }
}

impl State {
    pub fn to_image(&self) -> [u8; IMAGE_BYTES] {
        let mut bytes = [0; IMAGE_BYTES];
        bytes[IMAGE_BYTES - 1] = LAST_BYTE;
        let mut packer = Packer::new(&mut bytes);
        for field in self.clone().fields_mut() {
            packer.put(field.bits(), field.value());
        }
        bytes
    }

    /// The state of an image. Only the one image of a state is taken, so that nothing that stands
    /// in the bytes stays unseen.
    pub fn from_image(bytes: &[u8; IMAGE_BYTES]) -> Result<State, ImageError> {
        let mut unpacker = Unpacker::new(bytes);
        let mut state = State::default();
        for mut field in state.fields_mut() {
            field.set(unpacker.take(field.bits()));
        }
        if !unpacker.only_zeros_until(IMAGE_BYTES - 1) {
            return Err(ImageError::Padding);
        }
        match bytes[IMAGE_BYTES - 1] {
            LAST_BYTE => Ok(state),
            other => Err(ImageError::LastByte(other)),
        }
    }
}

#[cfg(test)]
mod tests {
    use super::*;
    use crate::state::Timer;

    #[test]
    fn the_fields_stand_where_the_format_says() {
        let mut state = State::bench();
        state.timers[0].cval = u64::MAX;
        state.timers[5].imask = true;
        let image = state.to_image();
        assert_eq!(image[0], 0b1101_0000, "VHE, SEL2 and NS");
        assert_eq!(image[1..5], [0, 0, 3, 3]);
        assert_eq!(image[9..17], 400u64.to_be_bytes());
        assert_eq!(image[25..33], [0xFF; 8]);
        assert_eq!(image[74], 0b0001_0000, "the last of 596 bits");
        assert_eq!(image[127], 0xA5);
        assert_eq!(State::from_image(&image), Ok(state));
    }

    #[test]
    fn every_field_comes_back() {
        let timer = |n: u64| Timer {
            cval: n.wrapping_mul(0x9E37_79B9_7F4A_7C15),
            enable: n.is_multiple_of(2),
            imask: n.is_multiple_of(3),
        };
        let state = State {
            ecv: true,
            ecven: true,
            tge: true,
            cntkctl: 0x8000_0001,
            cnthctl: 0xDEAD_BEEF,
            cntvoff: u64::MAX - 1,
            cntpoff: 1 << 63,
            timers: [1, 2, 3, 4, 5, 6].map(timer),
            ..State::default()
        };
        assert_eq!(State::from_image(&state.to_image()), Ok(state));
    }

    #[test]
    fn a_damaged_image_is_no_image() {
        let image = State::bench().to_image();
        let damaged = |place: usize, byte: u8| {
            let mut copy = image;
            copy[place] = byte;
            State::from_image(&copy)
        };
        assert_eq!(damaged(74, 0b0000_1000), Err(ImageError::Padding));
        assert_eq!(damaged(126, 1), Err(ImageError::Padding));
        assert_eq!(damaged(127, 0), Err(ImageError::LastByte(0)));
    }
}
