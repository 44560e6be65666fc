//! The answer to a record, in its bytes.

use crate::bits::{Packer, Unpacker};
use crate::record::RECORD_BYTES;

#[derive(Clone, Copy, Debug, Default, PartialEq, Eq)]
pub struct Answer {
    pub number: u8,
    pub rt: u8,
    /// The 55 bits behind Rt, zero in a good answer.
    pub padding: u64,
    pub value: u64,
    /// The unknown bits of the value.
    pub mask: u64,
}

impl Answer {
    pub fn pack(&self) -> [u8; RECORD_BYTES] {
        let mut bytes = [0; RECORD_BYTES];
        let mut fields = Packer::new(&mut bytes);
        fields.put(4, u64::from(self.number));
        fields.put(5, u64::from(self.rt));
        fields.put(55, self.padding);
        fields.put(64, self.value);
        fields.put(64, self.mask);
        bytes
    }

    pub fn unpack(bytes: &[u8; RECORD_BYTES]) -> Answer {
        let mut fields = Unpacker::new(bytes);
        Answer {
            number: fields.take(4) as u8,
            rt: fields.take(5) as u8,
            padding: fields.take(55),
            value: fields.take(64),
            mask: fields.take(64),
        }
    }
}

#[cfg(test)]
mod tests {
    use super::*;

    #[test]
    fn the_fields_stand_where_the_format_says() {
        let answer = Answer {
            number: 3,
            rt: 31,
            padding: 1,
            value: 600,
            mask: 4,
        };
        let bytes = [
            0x3F, 0x80, 0, 0, 0, 0, 0, 1, 0, 0, 0, 0, 0, 0, 0x02, 0x58, 0, 0, 0, 0, 0, 0, 0, 4,
        ];
        assert_eq!(answer.pack(), bytes);
        assert_eq!(Answer::unpack(&bytes), answer);
    }
}
