//! Rising and falling formulas (request A.6) in texts and images. Without the request no
//! random number is taken here.

use super::text::Writer;
use super::Rng;
use crate::check::Breach;
use crate::features;
use crate::image::code;

/// Whether the next rule is a pair.
pub(super) fn pair_wanted(rng: &mut Rng) -> bool {
    features::in_force().pairs && rng.chance(35)
}

impl Writer<'_> {
    /// `v+: GX(v > _v -> cases); v-: GX(v < _v -> cases);`
    pub(super) fn pair(&mut self, variable: usize) {
        let apart = self.rng.chance(85);
        for (sign, direction, rises) in [("+", ">", true), ("-", "<", false)] {
            let v = self.names[variable].spelling.clone();
            let previous = [b"_", &v[..]].concat();
            self.put_all(&[&v, sign.as_bytes(), b":", b"GX", b"(", &v]);
            self.put_all(&[direction.as_bytes(), &previous, b"->"]);
            let count = 1 + self.rng.below(self.shape.cases);
            for index in 0..count {
                if index > 0 {
                    self.put("|");
                }
                self.side_case(variable, apart.then_some(index as i64), rises);
            }
            self.put_all(&[b")", b";"]);
        }
    }

    /// `[c] & v = (e)`: with an index, conditions that are true for one previous value only,
    /// counted from the low for a rising case and from the high for a falling one.
    fn side_case(&mut self, variable: usize, index: Option<i64>, rises: bool) {
        let v = self.names[variable].spelling.clone();
        let (low, high) = (self.names[variable].low, self.names[variable].high);
        self.put("[");
        let only = index.map(|index| match rises {
            true => (low + index).min(high),
            false => (high - index).max(low),
        });
        match only {
            Some(only) => self.equals_previous(&v, only),
            None => self.condition(2),
        }
        self.put("]");
        self.put_all(&[b"&", &v, b"=", b"("]);
        match (self.rng.below(20), only) {
            (0, _) => self.expression(2),
            (1, _) => self.value(variable, only),
            (2..=4, _) | (_, None) => {
                let sign = if rises == self.rng.chance(95) {
                    "+"
                } else {
                    "-"
                };
                self.put_all(&[&[b"_", &v[..]].concat(), sign.as_bytes()]);
                let step = 1 + self.constant(2);
                self.digits(step);
            }
            (_, Some(only)) => self.beyond(low, high, only, rises),
        }
        self.put(")");
    }

    /// A value in the range above `only`, or below it; `only` itself if there is none.
    fn beyond(&mut self, low: i64, high: i64, only: i64, rises: bool) {
        let value = match rises {
            true => self.rng.between((only + 1).min(high), high),
            false => self.rng.between(low, (only - 1).max(low)),
        };
        self.signed(value.max(-i64::from(i32::MAX)));
    }
}

/// Codes that an instruction may have beside those of document 01.
pub(super) fn more_codes() -> Vec<u8> {
    let features = features::in_force();
    let mut codes = Vec::new();
    if features.pair_codes() {
        codes.extend([code::RISE, code::FALL]);
    }
    if features.timer_codes() {
        codes.push(code::TIMER);
    }
    codes
}

/// The pick codes of a random rule: mostly such as are sound.
pub(super) fn pick_codes(rng: &mut Rng, count: usize) -> Vec<u8> {
    if !features::in_force().pair_codes() || rng.chance(40) {
        return vec![code::PICK; count];
    }
    if rng.chance(20) {
        let any = [code::PICK, code::RISE, code::FALL];
        return (0..count).map(|_| *rng.choose(&any)).collect();
    }
    let rising = 1 + rng.below(2);
    let falling = 1 + rng.below(2);
    [vec![code::RISE; rising], vec![code::FALL; falling]].concat()
}

/// Lists of pick codes that break soundness, with how many picks stand before the place:
/// that of a pick, or of the settle after all.
const BROKEN_PICKS: [(&[u8], usize); 11] = [
    (&[25], 0),
    (&[25, 24], 0),
    (&[24], 1),
    (&[24, 24], 2),
    (&[24, 20], 1),
    (&[20, 24], 1),
    (&[20, 25], 1),
    (&[24, 25, 24], 2),
    (&[24, 25, 20], 2),
    (&[24, 24, 25, 25, 24, 25], 4),
    (&[20, 20, 24, 25], 2),
];

/// Broken code for variable 1 after a header: breach, how far before the end, code.
pub(super) fn broken_pairs(case: &[u8]) -> Vec<(Breach, usize, Vec<u8>)> {
    if !features::in_force().pair_codes() {
        return Vec::new();
    }
    let with_case = |tail: &[u8]| [case, tail].concat();
    let mut list = vec![
        (Breach::BadNumber, 1, with_case(&[24])),
        (Breach::BadNumber, 3, with_case(&[25, 129, 0])),
        (Breach::UnknownId, 2, with_case(&[24, 3])),
        (Breach::InputSet, 2, with_case(&[24, 0])),
        (Breach::PickWithoutGate, 2, vec![1, 2, 24, 1]),
        (Breach::PickWithoutGate, 2, vec![24, 1]),
        (Breach::PickLetHeld, 2, with_case(&[1, 2, 24, 1])),
        (
            Breach::BetweenPickAndSettle,
            2,
            with_case(&[24, 1, 1, 2, 21, 1]),
        ),
        (Breach::BetweenPickAndSettle, 2, with_case(&[24, 1, 22, 2])),
        (
            Breach::SettledAgain,
            2,
            [&[1, 2, 21, 1], case, &[24, 1]].concat(),
        ),
    ];
    for (picks, before) in BROKEN_PICKS {
        let mut code = Vec::new();
        for &pick in picks.iter().take(before + 1) {
            code.extend([case, &[pick, 1]].concat());
        }
        if before == picks.len() {
            code.extend([code::SETTLE, 1]);
        }
        list.push((Breach::PickSides, 2, code));
    }
    list
}
