//! Stands for the crate `crc`: does what its public documentation says, and
//! only what the carried files use (`Crc::<u16>` with `CRC_16_IBM_SDLC`).

use std::marker::PhantomData;

/// Parameters of a reflected CRC of 16 bits
pub struct Algorithm {
    poly: u16,
    init: u16,
    xorout: u16,
}

/// CRC-16/IBM-SDLC: input and output reflected
pub const CRC_16_IBM_SDLC: Algorithm = Algorithm {
    poly: 0x1021,
    init: 0xffff,
    xorout: 0xffff,
};

/// A CRC with its table
pub struct Crc<W> {
    init: u16,
    xorout: u16,
    table: [u16; 256],
    width: PhantomData<W>,
}

impl Crc<u16> {
    /// Create a CRC
    pub const fn new(algorithm: &'static Algorithm) -> Self {
        Crc {
            init: algorithm.init.reverse_bits(),
            xorout: algorithm.xorout,
            table: table(algorithm.poly.reverse_bits()),
            width: PhantomData,
        }
    }

    /// Calculate the checksum of some bytes
    pub fn checksum(&self, bytes: &[u8]) -> u16 {
        let mut crc = self.init;
        for b in bytes {
            crc = (crc >> 8) ^ self.table[usize::from((crc as u8) ^ b)];
        }
        crc ^ self.xorout
    }
}

/// Make the table of a reflected polynomial
const fn table(poly: u16) -> [u16; 256] {
    let mut table = [0; 256];
    let mut i = 0;
    while i < 256 {
        let mut v = i as u16;
        let mut bit = 0;
        while bit < 8 {
            v = if v & 1 != 0 { (v >> 1) ^ poly } else { v >> 1 };
            bit += 1;
        }
        table[i] = v;
        i += 1;
    }
    table
}

#[cfg(test)]
mod tests {
    use super::*;

    const CRC: Crc<u16> = Crc::<u16>::new(&CRC_16_IBM_SDLC);

    #[test]
    fn check_value() {
        assert_eq!(CRC.checksum(b"123456789"), 0x906e);
    }

    #[test]
    fn empty() {
        assert_eq!(CRC.checksum(b""), 0);
    }
}
