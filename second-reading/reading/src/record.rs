//! Document 01, 'The access journal': a record and an answer in their bytes.

use crate::access::{Access, Answer};
use crate::bits::{Packer, Unpacker};

/// A record and an answer have this many bytes each.
pub const RECORD_BYTES: usize = 24;

/// A journal over this many records is refused with 7.
pub const RECORD_LIMIT: usize = 1024;

/// A journal record: an access and the reserved bits, which are zero in a good one.
#[derive(Clone, Copy, Debug, Default, PartialEq, Eq)]
pub struct Record {
    pub access: Access,
    pub reserved: u32,
}

impl Record {
    /// word 32, level 2, reserved 30, operand 64, physical count 64.
    pub fn pack(&self) -> [u8; RECORD_BYTES] {
        let mut bytes = [0; RECORD_BYTES];
        let mut packer = Packer::new(&mut bytes);
        packer.put(32, u64::from(self.access.word));
        packer.put(2, u64::from(self.access.level));
        packer.put(30, u64::from(self.reserved));
        packer.put(64, self.access.operand);
        packer.put(64, self.access.count);
        bytes
    }

    pub fn unpack(bytes: &[u8; RECORD_BYTES]) -> Record {
        let mut fields = Unpacker::new(bytes);
        let word = fields.take(32) as u32;
        let level = fields.take(2) as u8;
        let reserved = fields.take(30) as u32;
        let operand = fields.take(64);
        let count = fields.take(64);
        Record {
            access: Access {
                word,
                level,
                operand,
                count,
            },
            reserved,
        }
    }
}

impl Answer {
    /// number 4, Rt 5, zero 55, value 64, mask 64.
    pub fn pack(&self) -> [u8; RECORD_BYTES] {
        let mut bytes = [0; RECORD_BYTES];
        let mut packer = Packer::new(&mut bytes);
        packer.put(4, u64::from(self.number));
        packer.put(5, u64::from(self.rt));
        packer.put(55, self.padding);
        packer.put(64, self.value);
        packer.put(64, self.mask);
        bytes
    }

    pub fn unpack(bytes: &[u8; RECORD_BYTES]) -> Answer {
        let mut fields = Unpacker::new(bytes);
        Answer {
            number: fields.take(4) as u8,
            rt: fields.take(5) as u8,
            padding: fields.take(55),
            value: fields.take(64),
            mask: fields.take(64),
        }
    }
}
