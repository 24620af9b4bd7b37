//! The CRC of RMAP headers, RMAP data and time packets (document 01, CRC).

/// x^2+x+1, the generator below x^8, mirrored: bit 7 stands for x^0 (001, 5.2, on r(x) and b).
const GENERATOR: u8 = 0xE0;

const TABLE: [u8; 256] = table();

const fn table() -> [u8; 256] {
    let mut table = [0; 256];
    let mut byte = 0;
    while byte < 256 {
        let mut crc = byte as u8;
        let mut bit = 0;
        while bit < 8 {
            crc = if crc & 1 == 1 { (crc >> 1) ^ GENERATOR } else { crc >> 1 };
            bit += 1;
        }
        table[byte] = crc;
        byte += 1;
    }
    table
}

/// The CRC of `bytes`; 0 for none, and 0 for bytes that end in their own CRC.
pub fn crc(bytes: &[u8]) -> u8 {
    bytes.iter().fold(0, |crc, &byte| TABLE[usize::from(crc ^ byte)])
}
