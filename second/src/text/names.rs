//! How each instruction and each event is written, shown where a line has the wrong fields.

pub const INSTRUCTION_FORMS: &[&str] = &[
    "NOP",
    "SET r1 7",
    "ADD r1 r2 r3",
    "SUB r1 r2 r3",
    "DIV r1 r2 r3",
    "LOAD r1 r2",
    "STORE r1 r2",
    "JZ r4 2",
    "TAKE r4 r5 r6",
    "TIME r1",
    "START r1 2 r3",
    "TIMER r1",
    "BYTES 00 01 02 03",
];

pub const EVENT_FORMS: &[&str] = &[
    "PSTEP 0",
    "PINT 1 1 9",
    "PTIME 0",
    "PEND",
    "LINK",
    "ACK",
    "FAIL",
    "DETECT",
    "BSTEP 0",
    "BEND 0",
    "BINT 1 1 9",
    "BYTES 01 00 00 00 00 00 00 00",
];

/// The reason for a line that has no listed name, or the wrong number of fields for it.
pub fn wrong_line(words: &[&str], what: &str, forms: &[&str]) -> String {
    let name = words.first().copied().unwrap_or("");
    let form = forms.iter().find(|form| form.split(' ').next() == Some(name));
    match form {
        Some(form) => format!("{name} has the wrong number of fields; it is written `{form}`"),
        None => format!("`{name}` is no {what}"),
    }
}
