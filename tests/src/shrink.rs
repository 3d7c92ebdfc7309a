//! Shrinking of an input that shows a difference.

/// The smallest input that still differs, reached by steps that `smaller` offers.
pub fn shrink<I: Clone>(start: &I, smaller: impl Fn(&I) -> Vec<I>, differs: impl Fn(&I) -> bool) -> I {
    let mut best = start.clone();
    'again: loop {
        for candidate in smaller(&best) {
            if differs(&candidate) {
                best = candidate;
                continue 'again;
            }
        }
        return best;
    }
}

/// A byte list with a run or a single byte left out, or a byte made 0.
pub fn smaller_bytes(bytes: &[u8]) -> Vec<Vec<u8>> {
    let mut list = Vec::new();
    let mut run = bytes.len() / 2;
    while run > 0 {
        for at in (0..bytes.len()).step_by(run) {
            let end = (at + run).min(bytes.len());
            list.push([&bytes[..at], &bytes[end..]].concat());
        }
        run /= 2;
    }
    for at in 0..bytes.len() {
        if bytes[at] != 0 {
            let mut next = bytes.to_vec();
            next[at] = 0;
            list.push(next);
        }
    }
    list
}

/// A list of numbers with one left out, or made 0.
pub fn smaller_numbers<T: Copy + Default + PartialEq>(numbers: &[T]) -> Vec<Vec<T>> {
    let mut list = Vec::new();
    for at in 0..numbers.len() {
        list.push([&numbers[..at], &numbers[at + 1..]].concat());
        if numbers[at] != T::default() {
            let mut next = numbers.to_vec();
            next[at] = T::default();
            list.push(next);
        }
    }
    list
}

/// 0, then numbers nearer to 0 by a power of 2, the greatest step first.
pub fn nearer_zero(number: i64) -> Vec<i64> {
    let steps = (0..63).rev().map(|k| 1i64 << k).filter(|step| step.unsigned_abs() < number.unsigned_abs());
    let nearer = steps.map(|step| number - step * number.signum());
    [0].into_iter().filter(|&zero| zero != number).chain(nearer).collect()
}

/// An accepted text without one of its variables (declaration and formulas), or with a case less in both formulas of a rule.
pub fn smaller_rules(text: &[u8]) -> Vec<Vec<u8>> {
    let statements: Vec<&[u8]> = text.split_inclusive(|&b| b == b';').collect();
    let mut list = Vec::new();
    for (index, statement) in statements.iter().enumerate() {
        if let Some(name) = declared(statement) {
            let kept = statements.iter().enumerate().filter(|(at, s)| *at != index && ruled(s) != Some(name));
            list.push(kept.map(|(_, s)| *s).collect::<Vec<_>>().concat());
        }
        let Some(next) = statements.get(index + 1).filter(|next| ruled(next).is_some() && ruled(next) == ruled(statement)) else {
            continue;
        };
        for case in 0..bars(statement, 1).len() + 1 {
            if let (Some(change), Some(unchanged)) = (without(statement, 1, case), without(next, 2, case)) {
                list.push([statements[..index].concat(), change, unchanged, statements[index + 2..].concat()].concat());
            }
        }
    }
    list
}

/// The words of a statement, as far as they are letters and digits.
fn words(statement: &[u8]) -> impl Iterator<Item = &[u8]> {
    statement.split(|b| !b.is_ascii_alphanumeric()).filter(|word| !word.is_empty())
}

/// The variable that a statement declares.
fn declared(statement: &[u8]) -> Option<&[u8]> {
    let mut words = words(statement);
    (words.next() == Some(b"var")).then(|| words.next()).flatten()
}

/// The variable that a formula is for.
fn ruled(statement: &[u8]) -> Option<&[u8]> {
    statement.contains(&b':').then(|| words(statement).next()).flatten()
}

/// Places of `|` inside `depth` brackets.
fn bars(statement: &[u8], depth: usize) -> Vec<usize> {
    let mut open = 0usize;
    let mut list = Vec::new();
    for (at, byte) in statement.iter().enumerate() {
        match byte {
            b'(' | b'[' => open += 1,
            b')' | b']' => open = open.saturating_sub(1),
            b'|' if open == depth => list.push(at),
            _ => {}
        }
    }
    list
}

/// A formula without one of its cases, the first left in if it is the only one. Its cases end at the last `)` but `depth` - 1.
fn without(statement: &[u8], depth: usize, case: usize) -> Option<Vec<u8>> {
    let bars = bars(statement, depth);
    let first = statement.windows(2).position(|w| w == b"->")? + 2;
    let first = if depth == 2 { first + statement[first..].iter().position(|&b| b == b'(')? + 1 } else { first };
    let mut closing = statement.iter().enumerate().rev().filter(|(_, &b)| b == b')').map(|(at, _)| at);
    let end = closing.nth(depth - 1)?;
    let (from, to) = match (case, bars.len()) {
        (_, 0) => return None,
        (0, _) => (first, bars[0] + 1),
        (k, count) if k < count => (bars[k - 1], bars[k]),
        (k, _) => (bars[k - 1], end),
    };
    (from <= to).then(|| [&statement[..from], &statement[to..]].concat())
}
