//! What a list of calls can be lent.

use crate::model::calls::{CHAIN, Lent, SKIPPED};

/// The lent lengths: chains, skipped keys, pairs above contiguous, unacked numbers, pairs of expired ones, bytes of output.
pub type Lengths = [usize; 6];

/// What is there to be lent. It is enough for every row of a store that a sheet can hold, so that no answer to a script
/// that asks for no more shows how much there is.
pub const HAS: Lengths = [256, 500, 7_680, 15_360, 7_680, 65_536];
/// What places hold that no call has written.
const FILL: u8 = 0xa5;
const FILL_NUMBER: u32 = 0xa5a5_a5a5;

pub struct Memory {
    pub has: Lengths,
    chains: Vec<u8>,
    skipped: Vec<u8>,
    pub above: Vec<u32>,
    unacked: Vec<u32>,
    expired: Vec<u32>,
    pub out: Vec<u8>,
}

impl Memory {
    pub fn new() -> Self {
        Self::of(HAS)
    }

    pub fn of(has: Lengths) -> Self {
        Self {
            has,
            chains: vec![FILL; CHAIN * has[0]],
            skipped: vec![FILL; SKIPPED * has[1]],
            above: vec![FILL_NUMBER; 2 * has[2]],
            unacked: vec![FILL_NUMBER; has[3]],
            expired: vec![FILL_NUMBER; 2 * has[4]],
            out: vec![FILL; has[5]],
        }
    }

    pub fn whole(&mut self) -> Lent<'_> {
        let has = self.has;
        self.lent(&has)
    }

    /// A length above what there is counts as what there is.
    pub fn lent(&mut self, lengths: &Lengths) -> Lent<'_> {
        let length = |at: usize| lengths[at].min(self.has[at]);
        Lent {
            chains: &mut self.chains[..CHAIN * length(0)],
            skipped: &mut self.skipped[..SKIPPED * length(1)],
            above: &mut self.above[..2 * length(2)],
            unacked: &mut self.unacked[..length(3)],
            expired: &mut self.expired[..2 * length(4)],
            out: &mut self.out[..length(5)],
        }
    }
}
