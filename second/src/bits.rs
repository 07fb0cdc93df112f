//! Bit-packed fields, the most significant bit first: reading one, and laying several in a row.

/// The number in the `count` bits of `bytes` that begin at bit `first`.
pub fn field(bytes: &[u8], first: usize, count: usize) -> u64 {
    let mut number = 0;
    for place in first..first + count {
        number = number * 2 + bit(bytes, place);
    }
    number
}

fn bit(bytes: &[u8], place: usize) -> u64 {
    let byte = bytes[place / 8];
    u64::from((byte >> (7 - place % 8)) & 1)
}

/// A row of bits under way.
#[derive(Default)]
pub struct Bits(Vec<bool>);

impl Bits {
    /// Lays `number` behind what is there, as a field of `count` bits.
    pub fn put(&mut self, number: u64, count: u32) {
        assert!(number < 1 << count, "{number} does not fit in {count} bits");
        for place in (0..count).rev() {
            self.0.push((number >> place) & 1 == 1);
        }
    }

    /// The bits as whole bytes; there has to be a whole number of them.
    pub fn bytes(&self) -> Vec<u8> {
        assert!(
            self.0.len().is_multiple_of(8),
            "not a whole number of bytes"
        );
        self.0.chunks(8).map(byte).collect()
    }
}

fn byte(eight: &[bool]) -> u8 {
    eight.iter().fold(0, |sum, &bit| sum << 1 | u8::from(bit))
}

#[cfg(test)]
mod tests {
    use super::*;

    #[test]
    fn a_field_may_cross_bytes() {
        assert_eq!(field(&[0x06, 0x30], 0, 7), 3);
        assert_eq!(field(&[0x06, 0x30], 7, 5), 3);
        assert_eq!(field(&[0xff, 0x00, 0xff], 4, 16), 0xf00f);
    }

    #[test]
    fn what_is_laid_is_read_back() {
        let mut bits = Bits::default();
        bits.put(5, 7);
        bits.put(1, 1);
        bits.put(0xabcde, 20);
        bits.put(9, 4);
        let bytes = bits.bytes();
        assert_eq!(bytes, [0x0b, 0xab, 0xcd, 0xe9]);
        assert_eq!(field(&bytes, 8, 20), 0xabcde);
    }
}
