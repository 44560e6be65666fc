//! Fields packed most significant bit first, with no alignment.

/// Lays fields down one after the other in a lent buffer.
pub(crate) struct Packer<'a> {
    bytes: &'a mut [u8],
    at: usize,
}

impl<'a> Packer<'a> {
    pub(crate) fn new(bytes: &'a mut [u8]) -> Self {
        Packer { bytes, at: 0 }
    }

    pub(crate) fn put(&mut self, width: u32, value: u64) {
        for place in (0..width).rev() {
            self.put_bit(value >> place & 1 == 1);
        }
    }

    fn put_bit(&mut self, bit: bool) {
        let mask = 0x80 >> (self.at % 8);
        let byte = &mut self.bytes[self.at / 8];
        *byte = if bit { *byte | mask } else { *byte & !mask };
        self.at += 1;
    }
}

/// Takes fields up again in the order they were laid down.
pub(crate) struct Unpacker<'a> {
    bytes: &'a [u8],
    at: usize,
}

impl<'a> Unpacker<'a> {
    pub(crate) fn new(bytes: &'a [u8]) -> Self {
        Unpacker { bytes, at: 0 }
    }

    pub(crate) fn take(&mut self, width: u32) -> u64 {
        (0..width).fold(0, |value, _| value << 1 | u64::from(self.take_bit()))
    }

    fn take_bit(&mut self) -> bool {
        let bit = self.bytes[self.at / 8] << (self.at % 8) & 0x80 != 0;
        self.at += 1;
        bit
    }

    /// Whether nothing but zeros is left before byte `end`.
    pub(crate) fn only_zeros_until(&mut self, end: usize) -> bool {
        (self.at..end * 8).all(|_| !self.take_bit())
    }
}

#[cfg(test)]
mod tests {
    use super::*;

    #[test]
    fn fields_cross_byte_borders_most_significant_bit_first() {
        let mut bytes = [0xFF; 3];
        let mut packer = Packer::new(&mut bytes);
        packer.put(3, 0b101);
        packer.put(13, 0x0F0F);
        packer.put(8, 0x42);
        assert_eq!(bytes, [0b1010_1111, 0b0000_1111, 0x42]);
        let mut unpacker = Unpacker::new(&bytes);
        assert_eq!(
            [3, 13, 8].map(|width| unpacker.take(width)),
            [0b101, 0x0F0F, 0x42]
        );
    }
}
