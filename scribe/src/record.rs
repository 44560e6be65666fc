//! A journal's record, in its bytes.

use crate::bits::{Packer, Unpacker};

/// A record and an answer have this many bytes.
pub const RECORD_BYTES: usize = 24;

/// A journal of more records than this is refused with 7.
pub const RECORD_LIMIT: usize = 1024;

/// One access; the reserved bits are zero in a good record.
#[derive(Clone, Copy, Debug, Default, PartialEq, Eq)]
pub struct Record {
    pub word: u32,
    pub level: u8,
    pub reserved: u32,
    pub operand: u64,
    pub count: u64,
}

impl Record {
    pub fn pack(&self) -> [u8; RECORD_BYTES] {
        let mut bytes = [0; RECORD_BYTES];
        let mut fields = Packer::new(&mut bytes);
        fields.put(32, u64::from(self.word));
        fields.put(2, u64::from(self.level));
        fields.put(30, u64::from(self.reserved));
        fields.put(64, self.operand);
        fields.put(64, self.count);
        bytes
    }

    pub fn unpack(bytes: &[u8; RECORD_BYTES]) -> Record {
        let mut fields = Unpacker::new(bytes);
        Record {
            word: fields.take(32) as u32,
            level: fields.take(2) as u8,
            reserved: fields.take(30) as u32,
            operand: fields.take(64),
            count: fields.take(64),
        }
    }
}

#[cfg(test)]
mod tests {
    use super::*;

    #[test]
    fn the_fields_stand_where_the_format_says() {
        let record = Record {
            word: 0xD53B_E040,
            level: 1,
            reserved: 0x2000_0001,
            operand: 0x0102_0304_0506_0708,
            count: 1000,
        };
        let bytes = [
            0xD5, 0x3B, 0xE0, 0x40, 0x60, 0, 0, 1, 1, 2, 3, 4, 5, 6, 7, 8, 0, 0, 0, 0, 0, 0, 0x03,
            0xE8,
        ];
        assert_eq!(record.pack(), bytes);
        assert_eq!(Record::unpack(&bytes), record);
    }
}
