//! Ways to the CRC in Rust that are measured beside the terminal's: slicing by eight, the quickest way with tables, and the terminal's own ways once more.

/// A byte in eight turns of a shift register: the CRC of that byte.
pub const fn turned(byte: u8) -> u8 {
    let (mut crc, mut turn) = (byte, 0);
    while turn < 8 {
        crc = (crc >> 1) ^ ((crc & 1) * 0b1110_0000);
        turn += 1;
    }
    crc
}

/// Table n has the CRC of each byte with n zeros behind it.
static TABLES: [[u8; 256]; 8] = {
    let mut tables = [[0; 256]; 8];
    let (mut n, mut byte) = (0, 0);
    while n < 8 {
        while byte < 256 {
            tables[n][byte] = turned(if n == 0 { byte as u8 } else { tables[n - 1][byte] });
            byte += 1;
        }
        (n, byte) = (n + 1, 0);
    }
    tables
};

/// Slicing by eight: eight look-ups that do not wait for each other, and their sum; what is left at the end byte by byte.
pub fn eight_tables(bytes: &[u8]) -> u8 {
    let (blocks, rest) = bytes.as_chunks::<8>();
    let crc = blocks.iter().fold(0, |crc, block| {
        let first = TABLES[7][usize::from(crc ^ block[0])];
        (1..8).fold(first, |sum, at| sum ^ TABLES[7 - at][usize::from(block[at])])
    });
    rest.iter().fold(crc, |crc, byte| TABLES[0][usize::from(crc ^ byte)])
}

/// What the terminal does: a table below eight bytes, words, and blocks of 127 from four on. What it takes less or more than this is its toolchain's doing.
pub fn words_and_blocks(bytes: &[u8]) -> u8 {
    let size = bytes.len();
    if size < 8 {
        return bytes.iter().fold(0, |crc, byte| TABLES[0][usize::from(crc ^ byte)]);
    }
    if size < 8 + 4 * 127 {
        return words(bytes);
    }
    let (first, blocks) = bytes.split_at((size - 8) % 127 + 8);
    let mut sum = [0; 127];
    sum[0] = words(first);
    for block in blocks.as_chunks::<127>().0 {
        let (sums, last_sums) = sum.split_at_mut(112);
        let (bytes, last_bytes) = block.split_at(112);
        sums.iter_mut().zip(bytes).for_each(|(sum, byte)| *sum ^= byte);
        last_sums.iter_mut().zip(last_bytes).for_each(|(sum, byte)| *sum ^= byte);
    }
    words(&sum)
}

/// Of at least eight bytes, eight at a time.
fn words(bytes: &[u8]) -> u8 {
    let first = (bytes.len() - 1) % 8 + 1;
    let start = bytes.first_chunk().expect("eight bytes");
    let (mut upper, mut lower) = (0, u64::from_le_bytes(*start) << (64 - 8 * first));
    for word in bytes[first..].as_chunks().0 {
        (upper, lower) = (lower ^ (upper << 63), u64::from_le_bytes(*word) ^ (upper >> 1));
    }
    let over = (upper << 63) ^ (upper << 60);
    let w64 = lower ^ upper ^ (upper >> 1) ^ (upper >> 4) ^ over ^ (over >> 1) ^ (over >> 4);
    let a = w64 % (1 << 32);
    let w36 = (w64 >> 32 << 4) ^ (a << 3) ^ (a << 2) ^ a;
    let b = w36 % (1 << 20);
    let w24 = (w36 >> 20 << 8) ^ (b << 4) ^ (b << 2) ^ b;
    let c = w24 % (1 << 8);
    let w16 = (w24 >> 8) ^ (c << 8) ^ (c << 6) ^ (c << 4);
    let (d, e) = (w16 % (1 << 8), w16 >> 8);
    let w12 = (d << 4) ^ (d << 2) ^ d ^ (e << 4) ^ (e << 3) ^ (e << 2);
    let f = w12 % (1 << 4);
    ((w12 >> 4) ^ (f << 4) ^ (f << 3) ^ (f << 2)) as u8
}
