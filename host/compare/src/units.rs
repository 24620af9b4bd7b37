//! What the program `trials` prints of a script, with the model's unit in place of the proved one.
use model::{End, Time, Unit, Window, crc};
use std::fmt::Write;
use stories::{LENT, Line, Setting};

/// The most bytes of a reply that are shown.
const SHOWN: usize = 80;
const NO_WINDOW: Window = Window { start: 0, size: 0, read: false, write: false };

pub fn printed(lines: &[Line]) -> Vec<u8> {
    let mut desk = Desk::fresh(0);
    let mut out = String::new();
    for line in lines {
        desk.run(line, &mut out);
    }
    out.into_bytes()
}

/// A unit, its memory, and how much of that is lent to it.
struct Desk {
    unit: Unit,
    memory: Vec<u8>,
    size: usize,
    /// A table of sixteen windows, of which the unit has the first ones.
    windows: Vec<Window>,
}

impl Desk {
    fn fresh(size: usize) -> Self {
        let mut windows = vec![NO_WINDOW; 16];
        windows[0] = Window { start: 0, size: size as u32, read: true, write: true };
        let unit = Unit::new(0x43, 0x2A, 0xF0, 4, windows[..1].to_vec());
        Desk { unit, memory: vec![0; LENT], size, windows }
    }

    fn run(&mut self, line: &Line, out: &mut String) {
        match line {
            Line::Fresh(size) => *self = Desk::fresh(*size),
            Line::Set(setting, value) => self.set(*setting, *value),
            Line::Window { row, start, end, rights } => {
                let window = Window { start: *start, size: end - start, read: rights & 1 != 0, write: rights & 2 != 0 };
                self.windows[*row] = window;
                self.use_windows(self.unit.windows.len());
            }
            Line::Packet { link, room, eep, bytes } => {
                let mut reply = vec![0xEE; *room];
                let end = if *eep { End::Eep } else { End::Eop };
                let answer = self.unit.take_packet(bytes, end, *link, &mut self.memory[..self.size], &mut reply);
                let status = answer.status.map_or("-".to_string(), |status| format!("{status:02x}"));
                say(out, format_args!("packet: {} {status} {} buffer {:02x}:", answer.fate, answer.reply, crc(&reply)));
                say_bytes(out, &reply[..answer.reply.min(SHOWN)]);
            }
            Line::TimeCode(code) => say(out, format_args!("code: {} -\n", self.unit.time_code(*code))),
            Line::Ticks(ticks) => say(out, format_args!("ticks: {} -\n", self.unit.ticks(*ticks))),
            Line::Memory { at, count } => {
                let memory = &self.memory[..self.size];
                say(out, format_args!("memory: all {:02x}:", crc(memory)));
                let shown = &memory[memory.len().min(*at)..];
                say_bytes(out, &shown[..shown.len().min(*count)]);
            }
            Line::Holds => self.holds(out),
        }
    }

    fn set(&mut self, setting: Setting, value: u64) {
        let unit = &mut self.unit;
        let (byte, word) = (value as u8, value as u32);
        match setting {
            Setting::Memory => self.size = value as usize,
            Setting::TimeNumber => unit.time_number = byte,
            Setting::Links => unit.link_count = byte,
            Setting::Windows => self.use_windows(value as usize),
            Setting::LastTimeCode => unit.last_time_code = byte,
            Setting::Elapsed => unit.elapsed.t = value,
            Setting::Waiting => unit.waiting = Some(Time { epoch: 0x9F, t: value }),
            Setting::PathCount => unit.owner.path.count = byte,
            Setting::OwnerLink => unit.owner.link = byte,
            Setting::Counters => {
                unit.counters.fates = [word; 10];
                unit.counters.total = word;
            }
            Setting::Vendor => unit.fields.vendor_and_product = word,
            Setting::Version => unit.fields.version = word,
            Setting::Status => unit.fields.status = word,
            Setting::ActiveLinks => unit.fields.active_links = word,
            Setting::LinkInformation => unit.fields.link_information = word,
            Setting::UnitVendor => unit.fields.unit_vendor_and_product = word,
            Setting::UnitSerial => unit.fields.unit_serial = word,
            Setting::BaseRate => unit.fields.base_rate = word,
            Setting::RateRange => unit.fields.rate_range = word,
            Setting::Divider => unit.fields.divider = word,
        }
    }

    /// The unit gets the first windows of the table; those beyond it are empty ones.
    fn use_windows(&mut self, count: usize) {
        self.unit.windows = self.windows.iter().cloned().chain(std::iter::repeat(NO_WINDOW)).take(count).collect();
    }

    fn holds(&self, out: &mut String) {
        let Unit { owner, elapsed, waiting, counters, fields, .. } = &self.unit;
        say(out, format_args!("unit: owner {:08x} {:02x} ", fields.device_id, owner.initiator));
        say(out, format_args!("{:02x} path {:x}:", owner.link, owner.path.count));
        say_bytes(out, &owner.path.bytes);
        say(out, format_args!(" clock {:02x}", self.unit.last_time_code));
        say_time(out, elapsed);
        match waiting {
            Some(time) => say_time(out, time),
            None => say(out, format_args!(" none")),
        }
        say(out, format_args!("\n counts"));
        counters.fates.iter().chain([&counters.total]).for_each(|count| say(out, format_args!(" {count}")));
        say(out, format_args!("\n"));
    }
}

fn say_time(out: &mut String, time: &Time) {
    say(out, format_args!(" {:014x} {:02x}", time.t, time.epoch));
}

/// Bytes, each behind a space, and the end of the line.
fn say_bytes(out: &mut String, bytes: &[u8]) {
    bytes.iter().for_each(|byte| say(out, format_args!(" {byte:02x}")));
    say(out, format_args!("\n"));
}

fn say(out: &mut String, what: std::fmt::Arguments) {
    out.write_fmt(what).expect("a string takes everything");
}

#[cfg(test)]
#[path = "../../model/tests/paper/wrong_zeros.rs"]
mod wrong_zeros;

#[cfg(test)]
#[path = "../../model/tests/paper/wrong_preambles.rs"]
mod wrong_preambles;

#[cfg(test)]
mod tests {
    use super::*;
    use crate::shortest::shortest;

    /// Worked out by hand from document 01: three bytes are an instruction with no header behind it (11); a write of 5A to address 1 that
    /// wants no reply is obeyed (18). Nothing waits at the wraps, which leave no fraction: with exactly one half the seconds go up, with a
    /// tick less they stay.
    #[test]
    fn a_script() {
        let packet = |bytes: &[u8]| Line::Packet { link: 1, room: 2, eep: false, bytes: bytes.to_vec() };
        let header = [0x43, 0x01, 0x64, 0x2A, 0x67, 0, 0, 0, 0, 0, 0, 1, 0, 0, 1];
        let write = [&header[..], &[crc(&header), 0x5A, crc(&[0x5A])]].concat();
        let lines = [
            Line::Fresh(4),
            Line::Set(Setting::LastTimeCode, 63),
            Line::Set(Setting::Elapsed, 0x7_800000),
            Line::Set(Setting::Counters, 0xFFFF_FFFF),
            packet(&[0x43, 0x01, 0x4C]),
            packet(&write),
            Line::TimeCode(0x40),
            Line::Memory { at: 1, count: 9 },
            Line::Holds,
            Line::Ticks(0x7FFFFF),
            Line::TimeCode(63),
            Line::TimeCode(0),
            Line::Holds,
        ];
        let all = crc(&[0, 0x5A, 0, 0]);
        let buffer = crc(&[0xEE, 0xEE]);
        // Twice the same: from 7 and a half up to 8, and from 8 and almost a half down to it.
        let unit = "unit: owner 00000000 00 00 path 0: 00 00 00 00 00 00 00 00 00 00 00 00\n \
             clock 00 00000008000000 00 none\n \
             counts 0 4294967295 4294967295 4294967295 4294967295 4294967295 4294967295 0 4294967295 4294967295 1\n";
        let expected = format!(
            "packet: 11 - 0 buffer {buffer:02x}:\n\
             packet: 18 00 0 buffer {buffer:02x}:\n\
             code: 0 -\n\
             memory: all {all:02x}: 5a 00 00\n\
             {unit}\
             ticks: 0 -\n\
             code: 0 -\n\
             code: 0 -\n\
             {unit}"
        );
        assert_eq!(String::from_utf8(printed(&lines)).as_deref(), Ok(&expected[..]));
    }

    const SECOND: u64 = 1 << 24;
    const HALF: u64 = SECOND / 2;
    const END: u64 = 1 << 56;

    /// The second of a time with no fraction, or the next one.
    fn full(t: u64, next: bool) -> u64 {
        (t - t % SECOND + if next { SECOND } else { 0 }) % END
    }

    /// Wrong rules for the wrap with nothing waiting: what they make of ET.
    const RULES: [(&str, fn(u64) -> u64); 8] = [
        ("seconds always go up, as they did before request 3", |t| full(t, true)),
        ("they never do", |t| full(t, false)),
        ("only above one half", |t| full(t, t % SECOND > HALF)),
        ("a tick before it", |t| full(t, t % SECOND >= HALF - 1)),
        ("by lower bits too", |t| full(t, t % SECOND >= HALF || t % 0x1_0000 >= 0x8000)),
        ("the fraction stays below it", |t| if t % SECOND < HALF { t } else { full(t, true) }),
        ("the last second stays", |t| full(t, t % SECOND >= HALF && t < END - SECOND)),
        ("the first does not follow it", |t| t - t % SECOND + if t % SECOND >= HALF { SECOND } else { 0 }),
    ];

    /// The fewest lines of a seed's scripts of which a wrong program, given a desk and a line at a time, prints something else.
    fn shown(run: impl Fn(&mut Desk, &Line, &mut String)) -> Vec<Line> {
        let slipped = |lines: &[Line]| {
            let mut desk = Desk::fresh(0);
            let mut out = String::new();
            lines.iter().for_each(|line| run(&mut desk, line, &mut out));
            out.into_bytes()
        };
        let differs = |lines: &[Line]| slipped(lines) != printed(lines);
        let row =
            (0..20).map(|index| stories::script(7, index)).find(|row| differs(row)).expect("the slip was not found");
        shortest(&row, differs)
    }

    /// The fewest lines where `slip` comes behind each wrap. It is given the unit before the wrap and the unit behind it.
    fn shown_by_wraps(slip: impl Fn(&Unit, &mut Unit)) -> Vec<Line> {
        shown(|desk, line, out| {
            let before = desk.unit.clone();
            desk.run(line, out);
            if matches!(line, Line::TimeCode(_)) && (before.last_time_code, desk.unit.last_time_code) == (63, 0) {
                slip(&before, &mut desk.unit);
            }
        })
    }

    /// The fewest lines where `rule`, which is told the unit's time number too, puts another packet in place of each.
    fn shown_by_packets(rule: impl Fn(&[u8], u8) -> Vec<u8>) -> Vec<Line> {
        shown(|desk, line, out| match line {
            Line::Packet { link, room, eep, bytes } => {
                let bytes = rule(bytes, desk.unit.time_number);
                desk.run(&Line::Packet { link: *link, room: *room, eep: *eep, bytes }, out);
            }
            other => desk.run(other, out),
        })
    }

    /// Each shows by a Time-Code and what the unit holds then, and few lines in front.
    #[test]
    fn wrong_wraps() {
        for (name, rule) in RULES {
            let lines = shown_by_wraps(|before, unit| {
                if before.waiting.is_none() {
                    unit.elapsed.t = rule(before.elapsed.t);
                }
            });
            assert!(matches!(lines[..], [.., Line::TimeCode(_), Line::Holds]) && lines.len() < 12, "{name}: {lines:?}");
        }
    }

    /// A value that waits does not win: below one half, or from one half on.
    #[test]
    fn a_waiting_value_that_loses() {
        for half in [false, true] {
            let lines = shown_by_wraps(|before, unit| {
                if before.waiting.is_some() && half == (before.elapsed.t % SECOND >= HALF) {
                    unit.elapsed = Time { t: full(before.elapsed.t, half), ..before.elapsed };
                }
            });
            assert!(matches!(lines[..], [.., Line::TimeCode(_), Line::Holds]) && lines.len() < 12, "{half}: {lines:?}");
        }
    }

    /// Wrong rules for the zero in front of plug-and-play: each shows by one packet, and few lines in front of it.
    #[test]
    fn wrong_zeros() {
        for (name, rule) in wrong_zeros::WRONG {
            let lines = shown_by_packets(rule);
            assert!(matches!(lines[..], [.., Line::Packet { .. }]) && lines.len() < 5, "{name}: {lines:?}");
        }
    }

    /// Wrong rules for the newer preamble: each shows by one packet, or by the time that it leaves, and few lines in front of it.
    #[test]
    fn wrong_preambles() {
        for (name, rule) in wrong_preambles::WRONG {
            let lines = shown_by_packets(|packet, time| wrong_preambles::taken_by(rule, packet, time));
            let shown = matches!(lines[..], [.., Line::Packet { .. }] | [.., Line::Packet { .. }, Line::Holds]);
            assert!(shown && lines.len() < 6, "{name}: {lines:?}");
        }
    }
}
