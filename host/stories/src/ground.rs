//! What a story has to know of the unit that it is told to.

pub struct Ground {
    /// Where windows begin and end, and where memory ends.
    pub edges: Vec<u32>,
    /// The size of the reply buffer.
    pub reply: u32,
    pub links: u8,
    /// The number of the time protocol.
    pub time: u8,
}

impl Ground {
    /// The bench's unit.
    pub fn bench() -> Self {
        Ground { edges: vec![4096], reply: 8192, links: 4, time: 0xF0 }
    }
}
