//! Stands for `src/dms/oer.rs` of the repository: a writer of the Octet Encoding
//! Rules, by ISO/IEC 8825-7 (X.696, Basic-OER), and only what the carried files
//! use.

/// Encoder for OER
pub struct Oer {
    buf: Vec<u8>,
}

impl From<Vec<u8>> for Oer {
    fn from(buf: Vec<u8>) -> Self {
        Oer { buf }
    }
}

impl From<Oer> for Vec<u8> {
    fn from(oer: Oer) -> Self {
        oer.buf
    }
}

impl Oer {
    /// Encode an integer of one octet
    pub fn u8(&mut self, v: u8) {
        self.buf.push(v);
    }

    /// Encode an integer of two octets, highest first
    pub fn u16(&mut self, v: u16) {
        self.buf.extend(v.to_be_bytes());
    }

    /// Encode an unsigned integer without upper bound: length, then the fewest
    /// octets, highest first
    pub fn uint(&mut self, v: u32) {
        let octets = fewest(v);
        self.length(octets.len());
        self.buf.extend(octets);
    }

    /// Encode a string of octets: length, then the octets
    pub fn octet_string(&mut self, octets: &[u8]) {
        self.length(octets.len());
        self.buf.extend(octets);
    }

    /// The same, by the name that graphics use
    pub fn octet_str(&mut self, octets: &[u8]) {
        self.octet_string(octets);
    }

    /// Encode a length: itself below 128, else 128 + count and its octets
    fn length(&mut self, len: usize) {
        if len < 128 {
            self.buf.push(len as u8);
        } else {
            let octets = fewest(u32::try_from(len).expect("OER length"));
            self.buf.push(0x80 | octets.len() as u8);
            self.buf.extend(octets);
        }
    }
}

/// Get the fewest octets of a number, at least one, highest first
fn fewest(v: u32) -> Vec<u8> {
    let octets = v.to_be_bytes();
    let zeros = octets.iter().take(3).take_while(|o| **o == 0).count();
    octets[zeros..].to_vec()
}

#[cfg(test)]
mod tests {
    use super::*;

    fn encoded(f: impl FnOnce(&mut Oer)) -> Vec<u8> {
        let mut oer = Oer::from(Vec::new());
        f(&mut oer);
        Vec::from(oer)
    }

    #[test]
    fn numbers() {
        assert_eq!(encoded(|o| o.u8(7)), [7]);
        assert_eq!(encoded(|o| o.u16(0x1234)), [0x12, 0x34]);
        assert_eq!(encoded(|o| o.uint(0)), [1, 0]);
        assert_eq!(encoded(|o| o.uint(255)), [1, 255]);
        assert_eq!(encoded(|o| o.uint(256)), [2, 1, 0]);
        assert_eq!(encoded(|o| o.uint(0x0100_0000)), [4, 1, 0, 0, 0]);
    }

    #[test]
    fn lengths() {
        assert_eq!(encoded(|o| o.octet_string(&[])), [0]);
        assert_eq!(encoded(|o| o.octet_string(&[9, 8])), [2, 9, 8]);
        assert_eq!(encoded(|o| o.octet_string(&[0; 127]))[..1], [127]);
        let long = encoded(|o| o.octet_string(&[0; 128]));
        assert_eq!((long.len(), &long[..3]), (130, &[0x81, 128, 0][..]));
        let longer = encoded(|o| o.octet_string(&[5; 300]));
        assert_eq!((longer.len(), &longer[..4]), (303, &[0x82, 1, 44, 5][..]));
    }
}
