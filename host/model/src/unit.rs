//! What a unit holds, and whether it is usable (document 01, The terminal and its neighbours, and
//! Numbers a caller gets).

use crate::packet::Path;

/// The logical address every target answers to (002, 5.2.1).
pub(crate) const ANY_ADDRESS: u8 = 0xFE;

/// Elapsed times are 56 bits: seconds in the upper 32, their fraction in the lower 24.
pub(crate) const TIME_BOUND: u64 = 1 << 56;

const MEMORY_LIMIT: usize = 65_536;
const WINDOW_LIMIT: usize = 16;

/// A part of memory that commands may reach, and what they may do there.
#[derive(Clone, Debug, PartialEq, Eq)]
pub struct Window {
    pub start: u32,
    pub size: u32,
    pub read: bool,
    pub write: bool,
}

impl Window {
    /// One past the last byte, as a whole number that cannot wrap.
    pub fn end(&self) -> u64 {
        u64::from(self.start) + u64::from(self.size)
    }
}

/// The values held for the fields that are not made up from the rest of the unit.
#[derive(Clone, Debug, Default, PartialEq, Eq)]
pub struct Fields {
    pub vendor_and_product: u32,
    pub version: u32,
    pub status: u32,
    pub active_links: u32,
    pub link_information: u32,
    pub device_id: u32,
    pub unit_vendor_and_product: u32,
    pub unit_serial: u32,
    pub base_rate: u32,
    pub rate_range: u32,
    pub divider: u32,
}

/// Who claimed the unit: the same initiator, reply path and link make the same owner.
#[derive(Clone, Copy, Debug, Default, PartialEq, Eq)]
pub struct Owner {
    pub initiator: u8,
    pub path: Path,
    pub link: u8,
}

/// A time and the first byte of its P-field, which holds the epoch code.
#[derive(Clone, Copy, Debug, Default, PartialEq, Eq)]
pub struct Time {
    pub epoch: u8,
    pub t: u64,
}

/// How often each fate from 11 to 20 came, in their order, and how often any of them.
#[derive(Clone, Debug, Default, PartialEq, Eq)]
pub struct Counters {
    pub fates: [u32; 10],
    pub total: u32,
}

/// All that a unit holds; its memory is lent to it on each call.
#[derive(Clone, Debug, PartialEq, Eq)]
pub struct Unit {
    pub logical_address: u8,
    pub key: u8,
    pub time_number: u8,
    pub link_count: u8,
    pub windows: Vec<Window>,
    pub fields: Fields,
    pub owner: Owner,
    pub last_time_code: u8,
    pub elapsed: Time,
    pub waiting: Option<Time>,
    pub counters: Counters,
}

impl Unit {
    /// A unit with nothing in its fields, no owner, time 0 and nothing counted.
    pub fn new(logical_address: u8, key: u8, time_number: u8, link_count: u8, windows: Vec<Window>) -> Unit {
        Unit {
            logical_address,
            key,
            time_number,
            link_count,
            windows,
            fields: Fields::default(),
            owner: Owner::default(),
            last_time_code: 0,
            elapsed: Time::default(),
            waiting: None,
            counters: Counters::default(),
        }
    }

    /// The causes of result 1 that do not lie in the memory lent.
    pub(crate) fn is_sound(&self) -> bool {
        self.windows.len() <= WINDOW_LIMIT
            && (0xF0..=0xFE).contains(&self.time_number)
            && (1..=31).contains(&self.link_count)
            && self.elapsed.t < TIME_BOUND
            && self.waiting.is_none_or(|time| time.t < TIME_BOUND)
            && self.last_time_code <= 63
            && self.owner.path.count <= 12
            && self.owner.link <= 31
    }

    /// The two causes that do.
    pub(crate) fn suits(&self, memory: usize) -> bool {
        (1..=MEMORY_LIMIT).contains(&memory) && self.windows.iter().all(|window| window.end() <= memory as u64)
    }
}
