//! A script for the program `trials`: units of every kind, what is asked of them, and what they hold then. The program's own
//! comment says what each line does.
use crate::chance::Chance;
use crate::command::path;
use crate::fields::DIVIDERS;
use crate::ground::Ground;
use crate::record::Record;
use crate::story::Story;
use crate::time::FRACTIONS;
use std::fmt;

/// The most that the program lends, as memory or as reply buffer, and takes as a packet.
pub const LENT: usize = 65_600;
const PACKET: usize = 1100;
/// A reply buffer that most replies fit into.
const ROOM: usize = 512;
/// More than the program reads at a time, so that its blocks end anywhere in a line.
const SCRIPT: usize = 100_000;

#[derive(Clone, Debug, PartialEq, Eq)]
pub enum Line {
    /// The bench's unit, with this much memory and a window over all of it.
    Fresh(usize),
    Set(Setting, u64),
    Window {
        row: usize,
        start: u32,
        end: u32,
        rights: u8,
    },
    Packet {
        link: u8,
        room: usize,
        eep: bool,
        bytes: Vec<u8>,
    },
    TimeCode(u8),
    Ticks(u32),
    /// Shows bytes of memory, and the CRC of all of it.
    Memory {
        at: usize,
        count: usize,
    },
    /// Shows owner, clock and counters.
    Holds,
}

/// What can be set of a unit, by its number.
#[derive(Clone, Copy, Debug, PartialEq, Eq)]
#[repr(u8)]
pub enum Setting {
    Memory,
    TimeNumber,
    Links,
    Windows,
    LastTimeCode,
    Elapsed,
    Waiting,
    PathCount,
    OwnerLink,
    Counters,
    Vendor = 0x10,
    Version,
    Status,
    ActiveLinks,
    LinkInformation,
    UnitVendor,
    UnitSerial,
    BaseRate,
    RateRange,
    Divider,
}

/// The script `index` of a seed: as many units as it has room for.
pub fn script(seed: u64, index: u64) -> Vec<Line> {
    let mut chance = Chance::new(seed, index);
    let mut lines = Vec::new();
    let mut size = 0;
    loop {
        let scene = scene(&mut chance);
        size += scene.iter().map(|line| line.to_string().len() + 1).sum::<usize>();
        if size > SCRIPT {
            return lines;
        }
        lines.extend(scene);
    }
}

/// A unit, and a story that it is told.
fn scene(chance: &mut Chance) -> Vec<Line> {
    let memory = chance.pick(&[1, 2, 16, 64, 64, 300, 4096, 0xFFFF, 0x1_0000]);
    let mut lines = vec![Line::Fresh(memory)];
    let ground = set_up(memory, &mut lines, chance);
    if chance.one_in(6) {
        lines.push(spoilt(memory, chance));
    }
    let mut story = Story::new(Chance::new(chance.next(), 0), ground);
    // Where the last Time-Code was set to 63, this is the wrap, and it finds ET as it was set.
    if chance.one_in(2) {
        story.records.push(Record::TimeCode(0));
    }
    if chance.one_in(2) {
        story.claim();
    }
    for _ in 0..chance.below(80) {
        story.go_on();
    }
    let time_number = story.ground.time;
    for record in story.records {
        match record {
            // Nothing else tells what a wrap finds and what it leaves.
            Record::TimeCode(code) if code & 63 == 0 => lines.extend([Line::Holds, Line::TimeCode(code), Line::Holds]),
            Record::TimeCode(code) => lines.push(Line::TimeCode(code)),
            Record::Ticks(ticks) => lines.push(Line::Ticks(ticks)),
            Record::Packet { link, eep, bytes } if bytes.len() <= PACKET => {
                let room = room(&bytes, chance);
                let sets_time = bytes.get(1) == Some(&time_number);
                lines.push(Line::Packet { link, room, eep, bytes });
                // Its line shows the fate, and not the time.
                if sets_time {
                    lines.push(Line::Holds);
                }
            }
            _ => continue,
        }
        match chance.below(6) {
            0 => lines.push(Line::Holds),
            1 => lines.push(Line::Memory { at: chance.below(memory), count: chance.below(40) }),
            _ => {}
        }
    }
    lines.extend([Line::Holds, Line::Memory { at: 0, count: 48 }]);
    lines
}

/// Sets the unit up with windows, fields and time of all kinds, so that it can be used.
fn set_up(memory: usize, lines: &mut Vec<Line>, chance: &mut Chance) -> Ground {
    use Setting::*;
    let mut set = |setting, value: u64| lines.push(Line::Set(setting, value));
    let links = 1 + chance.below(31) as u8;
    // Often FE: that address stands where the protocol should, if there is a zero in front of it.
    let time = if chance.one_in(4) { 0xFE } else { 0xF0 + chance.below(15) as u8 };
    set(Links, links.into());
    set(TimeNumber, time.into());
    for field in [Vendor, Version, Status, ActiveLinks, LinkInformation, UnitVendor, UnitSerial, BaseRate, Divider] {
        set(field, chance.word().into());
    }
    set(RateRange, (chance.pick(&DIVIDERS) << 16 | chance.pick(&DIVIDERS)).into());
    set(Counters, chance.pick(&[0, 1, u32::MAX, u32::MAX - 1, u32::MAX - 7]).into());
    set(LastTimeCode, chance.pick(&[0, 1, 62, 63, 63]));
    set(Elapsed, about_the_end(chance));
    if chance.one_in(2) {
        set(Waiting, about_the_end(chance));
    }
    if chance.one_in(8) {
        set(PathCount, chance.below(13) as u64);
        set(OwnerLink, chance.below(32) as u64);
    }

    let mut edges = vec![memory as u32];
    let windows = chance.pick(&[0, 1, 1, 2, 3, 5, 8, 15, 16]);
    set(Windows, windows as u64);
    // The first window often stays as it is, over all of memory; others often begin where the one before ends.
    let mut last = 0;
    for row in chance.below(2)..windows {
        let one = if chance.one_in(2) { last } else { chance.below(memory + 1) as u32 };
        let other = chance.below(memory + 1) as u32;
        let (start, end) = (one.min(other), one.max(other));
        edges.extend([start, end]);
        lines.push(Line::Window { row, start, end, rights: chance.pick(&[0, 1, 2, 3, 3]) });
        last = end;
    }
    Ground { edges, reply: ROOM as u32, links, time }
}

/// A time of 56 bits, often just before a second, half of one, or all of it, is over.
fn about_the_end(chance: &mut Chance) -> u64 {
    let any = chance.next() >> 8;
    let (end, last) = (1 << 56, 0xFFFF_FFFF << 24);
    let turning = chance.pick(&[any & last, last]) | u64::from(chance.pick(&FRACTIONS));
    chance.pick(&[any, any | 0xFF_FFFF, end - 1, end - 2, 0, any | last, turning, turning])
}

/// One of the things that make a unit unusable, or one that is only about to.
fn spoilt(memory: usize, chance: &mut Chance) -> Line {
    let last = memory as u32;
    let (setting, value) = chance.pick(&[
        (Setting::Memory, 0),
        (Setting::Memory, 0x1_0001),
        (Setting::Memory, memory as u64 - 1),
        (Setting::TimeNumber, 0xEF),
        (Setting::TimeNumber, 0xFF),
        (Setting::Links, 0),
        (Setting::Links, 32),
        (Setting::Windows, 16),
        (Setting::Windows, 17),
        (Setting::LastTimeCode, 64),
        (Setting::Elapsed, 1 << 56),
        (Setting::Waiting, 1 << 56),
        (Setting::PathCount, 13),
        (Setting::OwnerLink, 32),
    ]);
    if chance.one_in(6) {
        return Line::Window { row: chance.below(16), start: last, end: last + 1, rights: 3 };
    }
    Line::Set(setting, value)
}

/// A reply buffer for a packet: large, or about as large as its reply.
fn room(packet: &[u8], chance: &mut Chance) -> usize {
    let near = chance.below(3);
    // The zero of a path has no part in the reply.
    let packet = packet.strip_prefix(&[0]).unwrap_or(packet);
    let size = packet.get(2).map_or(0, |instruction| 4 * usize::from(instruction & 3));
    let path = packet.get(4..4 + size).map_or(0, |reply_address| path(reply_address).len());
    let length = match packet.get(12 + size..15 + size) {
        Some(&[high, middle, low]) => usize::from(high) << 16 | usize::from(middle) << 8 | usize::from(low),
        _ => 0,
    };
    let room = match chance.below(8) {
        0 => chance.below(26),
        1 => 7 + near + path,
        2 => 12 + near + path,
        3 => 12 + near + path + length,
        4 => LENT,
        _ => ROOM,
    };
    room.min(LENT)
}

impl fmt::Display for Line {
    fn fmt(&self, f: &mut fmt::Formatter<'_>) -> fmt::Result {
        match self {
            Line::Fresh(size) => write!(f, "u {size:x}"),
            Line::Set(setting, value) => write!(f, "o {:x}|{value:x}", *setting as u8),
            Line::Window { row, start, end, rights } => write!(f, "x {row:x}|{start:x}|{end:x}|{rights:x}"),
            Line::Packet { link, room, eep, bytes } => {
                write!(f, "{} packet|{link:x}|{room:x}|", if *eep { 'h' } else { 'g' })?;
                bytes.iter().try_for_each(|byte| write!(f, "{byte:02x}"))
            }
            Line::TimeCode(code) => write!(f, "q code|{code:x}"),
            Line::Ticks(ticks) => write!(f, "z ticks|{ticks:x}"),
            Line::Memory { at, count } => write!(f, "j memory|{at:x}|{count:x}"),
            Line::Holds => write!(f, "y unit"),
        }
    }
}
