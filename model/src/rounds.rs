//! Request A.9 of document 02, "Shares for several rule sets": visits and rounds.

use crate::instalments::{Answer, Paused, UNFINISHED};
use crate::machine::ScanRefusal;
use crate::Refusal;
use std::ops::RangeInclusive;

/// "One controller will hold 1 to 8 rule sets"
pub const SETS: RangeInclusive<usize> = 1..=8;
/// "share of 1 to 65,536 steps"
pub const SHARES: RangeInclusive<usize> = 1..=65_536;

/// A rule set, "each with its own image, state and share", and its paused scan.
#[derive(Clone, Debug, PartialEq, Eq, Hash)]
pub struct RuleSet {
    pub image: Vec<u8>,
    pub state: Vec<i32>,
    pub share: usize,
    pub paused: Paused,
}

impl RuleSet {
    /// A visit of this set.
    pub fn visit(&mut self) -> Answer {
        visit(&mut self.paused, &self.image, &mut self.state, self.share)
    }
}

/// "a visit starts a waiting row if no scan is unfinished, gives that scan its share, asks
/// for its finish, and answers the steps and this finish (a refused start instead); what is
/// left over isn't carried". The steps are the visit's own. With neither scan nor row the
/// visit is idle. A share out of limit is 25, as it is for a round.
pub fn visit(paused: &mut Paused, image: &[u8], state: &mut [i32], share: usize) -> Answer {
    if !SHARES.contains(&share) {
        return Err(ScanRefusal::before_code(25));
    }
    match paused.begin(image, state) {
        Err(refusal) if refusal.number != UNFINISHED => return Err(refusal),
        // The scan was started now, or before.
        _ => {}
    }
    let steps = paused.advance(share)?;
    match paused.finish(state) {
        Ok(_total) => Ok(steps),
        Err(refusal) => Err(ScanRefusal { steps, ..refusal }),
    }
}

/// "A round visits them in order"; the answer of each visit. "25 a count or share out of
/// limit, before any round".
pub fn round(sets: &mut [RuleSet]) -> Result<Vec<Answer>, Refusal> {
    if !SETS.contains(&sets.len()) || sets.iter().any(|set| !SHARES.contains(&set.share)) {
        return Err(Refusal::new(25, 0));
    }
    Ok(sets.iter_mut().map(RuleSet::visit).collect())
}
