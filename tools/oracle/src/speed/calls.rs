//! How long each of the eight calls takes against the size of the store, by a program that reads scripts as `replay` does.
//!
//! A script restores a store, opens its last contact, and then has a call so often that the program takes a second. From its
//! time that of the same script is taken away which has a `lend` for each call: a line that is read and does nothing. What is
//! left is the call, and the printing of its answer. Before each `cover` stands an `open`, in the other script too, so that
//! each puts in the same new range. The lines of a `restore` are comments in the other script, so that reading their digits
//! counts.

use crate::generate::inputs::Random;
use crate::generate::row_build::{self, FULL, SMALL, Size};
use crate::generate::store_build::{self, Counts, Plan};
use crate::model::memory::HAS;
use crate::model::rows::{Contact, Device, Range};
use crate::model::runner;
use crate::model::script::Step;
use crate::model::sheet::{self, Line};
use crate::programs::program::Program;
use crate::speed::clock::{median, programs_time};

/// The median of so many runs is taken, each of at least so many seconds, or of so many bytes.
const RUNS: usize = 3;
const RUN: f64 = 1.0;
const LONGEST: usize = 1 << 26;

/// Stores of 2, 10, 100, 271 and 400 entries, with the device's.
const COUNTS: [Counts; 5] = [
    counts(1, 0, 0),
    counts(1, 4, 4),
    counts(5, 47, 47),
    counts(20, 125, 125),
    counts(20, 190, 189),
];
/// Ranges above contiguous, of a contact that is alone.
const RANGES: [usize; 3] = [1, 100, 3_000];
/// Between two of these ranges there is room for one more.
const APART: u32 = 4;
/// Queued numbers start here: above every unacked one, and below every sent_msgno.
const FIRST_QUEUED: u32 = 100_000;

const fn counts(contacts: usize, queued: usize, courier: usize) -> Counts {
    Counts {
        contacts,
        queued,
        courier,
    }
}

pub fn run(program: Program) {
    let mut random = Random::new(1);
    println!(
        "| Entries | Bytes | Ranges above | restore | open | cover | contains | covers | take | statement | write |"
    );
    println!("|---|---|---|---|---|---|---|---|---|---|---|");
    for counts in COUNTS {
        Script::new(&mut random, counts, FULL).line(program);
    }
    for above in RANGES {
        Script::new(&mut random, COUNTS[0], Size { above, ..SMALL }).line(program);
    }
}

/// A store whose last contact is opened.
struct Script {
    lines: Vec<Line>,
    id: u64,
    above: Vec<Range>,
}

/// What is repeated, and what is in its place where the call is left out.
struct Repeated {
    call: String,
    without: String,
}

impl Script {
    fn new(random: &mut Random, counts: Counts, size: Size) -> Self {
        let plan = plan(random, counts, size);
        let (id, contact) = plan.contacts.last().expect("there is a contact");
        let (id, above) = (*id, contact.above.clone());
        let store = store_build::packed(plan.items(random));
        let lines = sheet::lines_of(&store).expect("rows of known kinds");
        Self { lines, id, above }
    }

    /// One line of the table: microseconds for each call.
    fn line(&self, program: Program) {
        let bytes: usize = self.lines.iter().map(|line| line.blob.len()).sum();
        let (entries, above) = (self.lines.len(), self.above.len());
        print!("| {entries} | {bytes} | {above} |");
        for repeated in self.calls() {
            print!(" {:.2} |", self.time(program, &repeated));
        }
        println!();
    }

    /// In the order of the table.
    fn calls(&self) -> [Repeated; 8] {
        let lend = format!("{}\n", Step::Lend(HAS));
        let alone = |call: String| Repeated {
            call,
            without: lend.clone(),
        };
        let restore = self.restore();
        let unread: String = restore.lines().map(|line| format!("#{line}\n")).collect();
        let open = format!("open {}\n", self.id);
        let (from, to) = self.above[self.above.len() / 2];
        // Not next to any number that is covered.
        let new = to + APART / 2;
        [
            Repeated {
                call: restore,
                without: format!("{lend}{unread}"),
            },
            alone(open.clone()),
            Repeated {
                call: format!("{open}cover {new} {new}\n"),
                without: format!("{open}{lend}"),
            },
            alone(format!("contains {from}\n")),
            alone(format!("covers {from} {to}\n")),
            alone("take\n".into()),
            alone("statement\n".into()),
            alone("write\n".into()),
        ]
    }

    fn restore(&self) -> String {
        format!("{}\n", Step::Restore(self.lines.clone()))
    }

    fn of(&self, repeated: &str, times: usize) -> String {
        let (restore, id) = (self.restore(), self.id);
        format!("script 1\n{restore}open {id}\n{}", repeated.repeat(times))
    }

    /// Microseconds of one call.
    fn time(&self, program: Program, repeated: &Repeated) -> f64 {
        let twice = self.of(&repeated.call, 2);
        let printed = String::from_utf8_lossy(&program.run(twice.as_bytes())).into_owned();
        assert!(!printed.contains("= no"), "every call is granted");
        assert_eq!(printed, runner::replay(&twice), "the answers are due");
        let mut times = 2;
        let mut script = twice;
        while script.len() < LONGEST && seconds(program, &script) < RUN {
            times *= 2;
            script = self.of(&repeated.call, times);
        }
        let without = self.of(&repeated.without, times);
        let run = |script: &str| median((0..RUNS).map(|_| seconds(program, script)).collect());
        (run(&script) - run(&without)) / times as f64 * 1e6
    }
}

/// For which the program had the processor: others may be at work on the machine.
fn seconds(program: Program, script: &str) -> f64 {
    let start = programs_time();
    drop(program.run(script.as_bytes()));
    programs_time() - start
}

/// Ids, (contact, msgno) and slots rise; sealed texts are short.
fn plan(random: &mut Random, counts: Counts, size: Size) -> Plan {
    let ids = 0..counts.contacts as u64;
    let contacts = ids.map(|id| (id, contact(random, size))).collect();
    let mut queued = Vec::new();
    for at in 0..counts.queued {
        let each = counts.queued.div_ceil(counts.contacts);
        let msgno = FIRST_QUEUED + (at % each) as u32;
        queued.push((
            (at / each) as u64,
            msgno,
            row_build::queued(random, at % 2 == 0, 0),
        ));
    }
    let mut courier = Vec::new();
    for slot in 0..counts.courier as u64 {
        let row = match slot % 2 {
            0 => row_build::tombstone(random),
            _ => store_build::deposited(row_build::carried(random, 0), 0),
        };
        courier.push((slot, row));
    }
    let device = Device {
        next_contact: counts.contacts as u64,
        ..row_build::device(random)
    };
    Plan {
        device,
        contacts,
        queued,
        courier,
    }
}

/// A contact whose ranges are single numbers, so far apart that one fits between each two.
fn contact(random: &mut Random, size: Size) -> Contact {
    let contact = row_build::contact(random, size);
    let first = contact.contiguous + APART;
    let numbers = (0..size.above as u32).map(|index| first + APART * index);
    Contact {
        above: numbers.map(|number| (number, number)).collect(),
        ..contact
    }
}
