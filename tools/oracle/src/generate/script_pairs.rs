//! Pairs of lists of calls whose stores differ only in veiled bytes: all answers are alike but for the veiled bytes of rows.

use crate::generate::inputs::Random;
use crate::model::calls::Call;
use crate::model::rows;
use crate::model::script::{self, Step};
use crate::model::sheet;
use crate::model::store::Store;

/// The same steps with other veiled bytes, and other bytes in no row.
pub fn twin(random: &mut Random, steps: &[Step], number: u64) -> Vec<Step> {
    let blank = random.flag();
    let mut changed = |step: &Step| match step {
        Step::Script(_) => Step::Script(number),
        Step::Restore(lines) => {
            let store = with_other_bytes(random, blank, &sheet::store_of(lines));
            Step::Restore(sheet::lines_of(&store).expect("the rows of a sheet"))
        }
        Step::RawRestore(store) => Step::RawRestore(with_other_bytes(random, blank, store)),
        step => step.clone(),
    };
    steps.iter().map(&mut changed).collect()
}

fn with_other_bytes(random: &mut Random, blank: bool, store: &Store) -> Store {
    let mut other = store.clone();
    for (byte, unnoticed) in other.run.iter_mut().zip(store.unnoticed()) {
        if unnoticed {
            *byte = if blank { 0 } else { random.byte() };
        }
    }
    other
}

/// Whether these answers to a step are alike: the same, or rows of the same bytes outside the veiled ones.
pub fn alike(step: &Step, one: &str, other: &str) -> bool {
    let shows_row = matches!(step, Step::Call(Call::Write) | Step::State);
    one == other || (shows_row && blanked(one) == blanked(other))
}

/// The answer with the veiled bytes of its row, the longest word, zero.
fn blanked(answer: &str) -> Vec<String> {
    let blank = |word: &str| match script::bytes(word) {
        Some(row) if row.len() > 100 => {
            let veiled = rows::contact(3, &row).veiled;
            format!("{:?}", rows::blanked(&row, &veiled))
        }
        _ => word.into(),
    };
    answer.split(' ').map(blank).collect()
}
