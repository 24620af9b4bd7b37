//! A row on which program and model differ, made as short as it can be.
use crate::input::Input;
use crate::shortest::shortest;
use std::fmt;
use std::panic::{AssertUnwindSafe, catch_unwind};

/// What is printed of a row, or why nothing is.
pub type Printed = Result<Vec<u8>, String>;
/// A program: what it prints of its input.
pub type Prints<'a> = dyn Fn(&[u8]) -> Printed + Sync + 'a;

/// What program and model print of a row.
fn both<T: Input>(row: &[T], program: &Prints) -> (Printed, Printed) {
    let printed = program(&T::bytes(row));
    let own =
        printed.and_then(|all| T::own(&all).map(<[u8]>::to_vec).ok_or("it did not begin as it should".to_string()));
    let expected = catch_unwind(AssertUnwindSafe(|| T::expected(row)));
    (own, expected.map_err(|_| "it panicked".to_string()))
}

/// What both print of the row, where they agree.
pub fn agreed<T: Input>(row: &[T], program: &Prints) -> Result<Vec<u8>, Difference<T>> {
    match both(row, program) {
        (Ok(printed), Ok(expected)) if printed == expected => Ok(printed),
        other => Err(Difference::new(row, other, program)),
    }
}

/// The shortest row that was found to differ, and the first line in which it does.
#[derive(Debug)]
pub struct Difference<T> {
    pub row: Vec<T>,
    program: String,
    model: String,
}

impl<T: Input> Difference<T> {
    fn new(row: &[T], found: (Printed, Printed), program: &Prints) -> Self {
        let differs = |row: &[T]| match both(row, program) {
            (Ok(printed), Ok(expected)) => printed != expected,
            _ => true,
        };
        let row = shortest_row(row, differs);
        // Where it does not show again, all is told as it was found.
        let shown = both(&row, program);
        let (program, model) = match if shown.0 == shown.1 { found } else { shown } {
            (Ok(printed), Ok(expected)) => first_difference(&printed, &expected),
            (printed, expected) => (fault(printed), fault(expected)),
        };
        Difference { row, program, model }
    }
}

/// The row without the items that are not needed for it to differ, and then without such bytes of its packets.
fn shortest_row<T: Input>(row: &[T], differs: impl Fn(&[T]) -> bool) -> Vec<T> {
    let mut row = shortest(row, &differs);
    for at in 0..row.len() {
        let Some(packet) = row[at].packet().cloned() else { continue };
        let with = |bytes: &[u8]| {
            let mut row = row.clone();
            *row[at].packet().expect("it is a packet") = bytes.to_vec();
            row
        };
        let fewer = shortest(&packet, |bytes| differs(&with(bytes)));
        row = with(&fewer);
    }
    row
}

fn fault(printed: Printed) -> String {
    printed.err().map_or_else(String::new, |why| format!("nothing: {why}"))
}

/// The first line that differs, on either side; nothing where a side has no such line.
fn first_difference(left: &[u8], right: &[u8]) -> (String, String) {
    let (mut left, mut right) = (left.split(|byte| *byte == b'\n'), right.split(|byte| *byte == b'\n'));
    let text = |line: Option<&[u8]>| line.map(|line| String::from_utf8_lossy(line).into_owned()).unwrap_or_default();
    loop {
        match (left.next(), right.next()) {
            (None, None) => return (String::new(), String::new()),
            (l, r) if l != r => return (text(l), text(r)),
            _ => {}
        }
    }
}

impl<T: Input> fmt::Display for Difference<T> {
    fn fmt(&self, f: &mut fmt::Formatter<'_>) -> fmt::Result {
        writeln!(f, "the fewest {} that show it:", T::NAMES.0)?;
        self.row.iter().try_for_each(|item| writeln!(f, "    {item}"))?;
        write!(f, "the program prints: {}\nthe model prints:   {}", self.program, self.model)
    }
}
