//! Sheets to try: of granted and of refused stores, with one of 41 to 44 broken on purpose, and damaged.

use crate::generate::inputs::Random;
use crate::generate::row_build;
use crate::generate::script_stores;
use crate::generate::store_break;
use crate::generate::store_build;
use crate::model::questions;
use crate::model::script::Step;
use crate::model::sheet::{self, BLOB_BYTES, LINES, Line};
use crate::model::store::{COURIER, Refusal};

/// A sheet, and what is printed where that is known beforehand.
pub struct Made {
    pub sheet: Vec<u8>,
    pub due: Option<String>,
}

fn made(sheet: Vec<u8>, due: Option<String>) -> Made {
    Made { sheet, due }
}

/// Of a hundred, 28 are of granted stores, 33 of stores with one question broken, 25 with a line broken, 8 damaged, 2 with
/// the highest number of its width, and 4 at the limits.
pub fn sheet(random: &mut Random, index: usize) -> Made {
    match index % 100 {
        0..28 => made(text(&granted(random)), None),
        28..61 => refused(random, questions::OF_RESTORE[index % 100 - 27]),
        61..86 => broken(random),
        86 | 87 => made(widest(random), None),
        88..96 => {
            let mut sheet = text(&granted(random));
            damage(random, &mut sheet);
            made(sheet, None)
        }
        96 | 97 => many_lines(random),
        _ => many_bytes(random),
    }
}

fn text(lines: &[Line]) -> Vec<u8> {
    sheet::text_of(lines).into_bytes()
}

fn granted(random: &mut Random) -> Vec<Line> {
    loop {
        if let Step::Restore(lines) = script_stores::granted(random) {
            return lines;
        }
    }
}

/// What restore can answer, each broken alone; a sheet cannot have 2. In the place of 2 stands 1.
fn refused(random: &mut Random, number: u32) -> Made {
    let number = if number == questions::IN_RUN {
        questions::KINDS
    } else {
        number
    };
    loop {
        let plan = store_build::rich(random);
        let (store, Refusal { number, index }) = store_break::aimed(random, plan, number);
        let Some(lines) = sheet::lines_of(&store) else {
            continue;
        };
        let size: usize = lines.iter().map(|line| line.blob.len()).sum();
        if size <= BLOB_BYTES && lines.len() <= LINES {
            return made(text(&lines), Some(format!("R,{number},{index}\n")));
        }
    }
}

/// One line with a no of 41 to 43, and perhaps later ones, which are not asked about any more.
fn broken(random: &mut Random) -> Made {
    let lines = granted(random);
    let at = random.below(lines.len());
    let number = random.pick(&[questions::LINE, questions::DECIMAL, questions::BLOB]);
    let mut texts: Vec<Vec<u8>> = lines.iter().map(|line| line.text().into_bytes()).collect();
    texts[at] = broken_line(random, &lines[at], number);
    for later in at + 1..lines.len() {
        if random.below(6) == 0 {
            let number = random.pick(&[questions::LINE, questions::DECIMAL, questions::BLOB]);
            texts[later] = broken_line(random, &lines[later], number);
        }
    }
    if number == questions::LINE && at + 1 == lines.len() && random.flag() {
        // All that is wrong with the last line is that it has no LF; or its fields are wrong too.
        let later = random.pick(&[questions::DECIMAL, questions::BLOB, 0]);
        texts[at] = broken_line(random, &lines[at], later);
        texts[at].pop();
    }
    made(texts.concat(), Some(format!("X,{number},{}\n", at + 1)))
}

/// What is no decimal of any width.
const NOT_DECIMAL: [&str; 14] = [
    "",
    "03",
    "00",
    "+1",
    "-1",
    " 1",
    "1 ",
    "1a",
    "0x3",
    "1.0",
    "٣",
    "\u{0}",
    "99999999999999999999999999999999999999999",
    "18446744073709551619",
];
const NOT_BLOB: [&str; 11] = [
    "0", "AB", "0g", "ab\r", "\r", " ab", "ab ", "0x", "é", "a\u{0}", "/:",
];

/// The line with this number for its first no; what is asked later may be broken too.
fn broken_line(random: &mut Random, line: &Line, number: u32) -> Vec<u8> {
    let text = line.text();
    let text = text.trim_end_matches('\n');
    let mut fields: Vec<String> = text.split(',').map(String::from).collect();
    let last = fields.len() - 1;
    if number == questions::BLOB || random.below(3) == 0 {
        let broken = random.pick(&NOT_BLOB);
        let pairs = fields[last].len() / 2;
        let any = random.below(pairs + 1);
        let at = random.pick(&[pairs, any]);
        fields[last].insert_str(2 * at, broken);
    }
    if number == questions::DECIMAL || (number == questions::LINE && random.below(3) == 0) {
        let at = 1 + random.below(last - 1);
        // The first number of a contact, queued or courier line is the only one of 64 bits.
        let wide = at == 1 && line.kind != 0;
        let broken = match random.below(4) {
            0 if wide => "18446744073709551616",
            0 => "4294967296",
            _ => random.pick(&NOT_DECIMAL),
        };
        fields[at] = broken.into();
    }
    if number == questions::LINE {
        return not_a_line(random, fields);
    }
    (fields.join(",") + "\n").into_bytes()
}

/// A number that is the highest of its width, which 42 lets pass.
fn widest(random: &mut Random) -> Vec<u8> {
    let mut lines = granted(random);
    let at = random.below(lines.len());
    match random.below(3) {
        0 => lines[at].version = u32::MAX,
        1 => lines[at].msgno = u32::MAX,
        _ => lines[at].id = u64::MAX,
    }
    text(&lines)
}

/// Another letter, a field more or less, or nothing.
fn not_a_line(random: &mut Random, mut fields: Vec<String>) -> Vec<u8> {
    let at = random.below(fields.len());
    match random.below(9) {
        0 => fields = vec![String::new()],
        1 => fields[0] = fields[0].to_lowercase(),
        2 => {
            fields[0] = random
                .pick(&["S", "T", "", "DD", " D", "D ", "é", "\u{feff}D"])
                .into()
        }
        3 => drop(fields.remove(at)),
        4 => fields.push(String::new()),
        5 => fields.insert(1, "3".into()),
        6 => fields = vec![fields[0].clone()],
        7 => fields.push(random.pick(&["00", "3", "D"]).into()),
        _ => {
            // With this letter there are more fields or fewer.
            let other = if fields[0] == "Q" { "D" } else { "Q" };
            fields[0] = other.into();
        }
    }
    (fields.join(",") + "\n").into_bytes()
}

/// Bytes changed, put in, left out, and lines exchanged.
fn damage(random: &mut Random, sheet: &mut Vec<u8>) {
    for _ in 0..1 + random.below(3) {
        let at = random.below(sheet.len().max(1));
        let byte = match random.below(3) {
            0 => random.byte(),
            _ => random.pick(b"\n\n,,0139afDCQK\r A"),
        };
        match random.below(6) {
            0 => sheet.truncate(at),
            1 if at < sheet.len() => drop(sheet.remove(at)),
            2 => sheet.insert(at, byte),
            3 => sheet.extend(sheet.clone()),
            4 => sheet.reverse(),
            _ if at < sheet.len() => sheet[at] = byte,
            _ => {}
        }
    }
}

/// 511 to 514 lines of a store that is granted but for that. The line past the limit may have an earlier no.
fn many_lines(random: &mut Random) -> Made {
    let count = random.pick(&[LINES - 1, LINES, LINES + 1, LINES + 2]);
    let mut lines = vec![line(0, 0, row_build::device(random).row())];
    for slot in 1..count as u64 {
        lines.push(line(COURIER, slot, row_build::tombstone(random).row()));
    }
    if count <= LINES {
        let due = format!("T,0,0,{},{count}\n", count - 1);
        return made(text(&lines), Some(due));
    }
    if random.flag() {
        let due = format!("X,{},{}\n", questions::SHEET_ROOM, LINES + 1);
        return made(text(&lines), Some(due));
    }
    let mut texts: Vec<Vec<u8>> = lines.iter().map(|line| line.text().into_bytes()).collect();
    let number = random.pick(&[questions::LINE, questions::DECIMAL, questions::BLOB]);
    texts[LINES] = broken_line(random, &lines[LINES], number);
    made(texts.concat(), Some(format!("X,{number},{}\n", LINES + 1)))
}

fn line(kind: u32, id: u64, blob: Vec<u8>) -> Line {
    Line {
        kind,
        id,
        msgno: 0,
        version: 3,
        blob,
    }
}

/// Around 61,440 bytes: exactly so many, one more, many more in one line; the line past the limit may have an earlier no.
fn many_bytes(random: &mut Random) -> Made {
    let mut lines = granted(random);
    let size: usize = lines.iter().map(|line| line.blob.len()).sum();
    let more = random.pick(&[0, 1, 1, 2, 100_000]);
    let Some(rest) = (BLOB_BYTES + more).checked_sub(size) else {
        return made(text(&lines), None);
    };
    let slot = random.next() >> 1;
    lines.push(line(COURIER, slot, vec![1; rest]));
    let past = lines.len();
    lines.push(line(COURIER, slot, Vec::new()));
    let mut texts: Vec<Vec<u8>> = lines.iter().map(|line| line.text().into_bytes()).collect();
    let number = match random.below(3) {
        _ if more == 0 => return made(texts.concat(), None),
        0 => {
            let number = random.pick(&[questions::LINE, questions::DECIMAL, questions::BLOB]);
            texts[past - 1] = broken_line(random, &lines[past - 1], number);
            number
        }
        _ => questions::SHEET_ROOM,
    };
    made(texts.concat(), Some(format!("X,{number},{past}\n")))
}
