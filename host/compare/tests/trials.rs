//! The lines that the program `trials` is tested with, told to the model's unit. What must be printed of them was worked out by hand; the
//! model, another hand, has to print the same.
use compare::input::Input;
use stories::{Line, Setting, Setting::*};

const STDIN: &str = include_str!("../../../crates/trials/stdin");
const STDOUT: &str = include_str!("../../../crates/trials/stdout");

/// A window that ends before it begins: the model has no place for one. It holds no span, and the one that it replaces has no rights, so
/// the lines behind it print the same without it. No other line is left out, and this one once.
const LEFT_OUT: [&str; 1] = ["x 4|38|30|3"];

const SETTINGS: [Setting; 20] = [
    Memory,
    TimeNumber,
    Links,
    Windows,
    LastTimeCode,
    Elapsed,
    Waiting,
    PathCount,
    OwnerLink,
    Counters,
    Vendor,
    Version,
    Status,
    ActiveLinks,
    LinkInformation,
    UnitVendor,
    UnitSerial,
    BaseRate,
    RateRange,
    Divider,
];

#[test]
fn the_model_prints_what_was_worked_out() {
    let (left_out, texts): (Vec<&str>, Vec<&str>) = STDIN.lines().partition(|text| LEFT_OUT.contains(text));
    assert_eq!(left_out, LEFT_OUT);
    let lines: Vec<Line> = texts.iter().filter_map(|text| line(text)).collect();
    let printed = String::from_utf8(Line::expected(&lines)).expect("the model prints text");
    let mut printed = printed.lines();
    let mut worked_out = STDOUT.lines();
    for text in texts {
        let name = fields(text)[0];
        let Some(line) = line(text) else {
            assert_eq!(Some(name), worked_out.next(), "of the heading: {text}");
            continue;
        };
        // Where the program prints the name of a line, the model has a word for its kind.
        for own in printed.by_ref().take(line.lines()) {
            let own = own.split_once(": ").map_or(own.to_string(), |(_, what)| format!("{name}: {what}"));
            assert_eq!(Some(&own[..]), worked_out.next(), "of the line: {text}");
        }
    }
    assert_eq!((printed.next(), worked_out.next()), (None, None));
}

/// A line as the program reads it; a heading is none, for it tells the unit nothing.
fn line(text: &str) -> Option<Line> {
    let fields = fields(text);
    let number = |at: usize| u64::from_str_radix(fields[at], 16).unwrap_or_else(|_| panic!("no number {at}: {text}"));
    Some(match &text[..2] {
        "# " => return None,
        "u " => Line::Fresh(number(0) as usize),
        "o " => Line::Set(setting(number(0)), number(1)),
        "x " => {
            let (start, end) = (number(1) as u32, number(2) as u32);
            assert!(start <= end, "the model has no place for it: {text}");
            Line::Window { row: number(0) as usize, start, end, rights: number(3) as u8 }
        }
        "g " | "h " => {
            let eep = text.starts_with('h');
            Line::Packet { link: number(1) as u8, room: number(2) as usize, eep, bytes: bytes(fields[3]) }
        }
        "q " => Line::TimeCode(number(1) as u8),
        "z " => Line::Ticks(number(1) as u32),
        "j " => Line::Memory { at: number(1) as usize, count: number(2) as usize },
        "y " => Line::Holds,
        _ => panic!("no such line: {text}"),
    })
}

fn fields(text: &str) -> Vec<&str> {
    text[2..].split('|').collect()
}

fn setting(number: u64) -> Setting {
    SETTINGS.into_iter().find(|setting| *setting as u64 == number).expect("a setting has this number")
}

fn bytes(text: &str) -> Vec<u8> {
    let digits: String = text.split(' ').collect();
    (0..digits.len()).step_by(2).map(|at| u8::from_str_radix(&digits[at..at + 2], 16).expect("a byte")).collect()
}
