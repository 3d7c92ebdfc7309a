//! Request A.13: watch formulas.

mod common;

use common::{answer, expect, hex, image, landed_and_all};
use rolvenko_model::features::{in_force, with};
use rolvenko_model::generate::{render, row, watch_parts, watched_trace, Rng, Shape, WatchParts};
use rolvenko_model::{
    read_text, scan, trace, translate, watch, write_image, write_report, write_structured_text,
    Features, Program, Refusal,
};

const A13: Features = Features {
    watches: true,
    ..Features::NONE
};
const P: &str = "input i 0..1; var v 0..9; v: GX(v = (_v + i)); ";
const T: [i32; 8] = [0, 0, 1, 1, 1, 2, 0, 2];

/// The report on P with these watches: places, −1 for never.
fn report(watches: &[&str], trace: &[i32]) -> Result<Vec<i64>, u8> {
    let all: String = watches.iter().map(|w| format!("watch: G({w}); ")).collect();
    report_of(&format!("{P}{all}"), trace)
}

fn report_of(text: &str, trace: &[i32]) -> Result<Vec<i64>, u8> {
    let mut report = [77; 16];
    let answer = write_report(text.as_bytes(), trace, &mut report).map_err(|r| r.number);
    let written = answer.unwrap_or(0);
    assert!(report[written..].iter().all(|&number| number == 77));
    answer.map(|count| report[..count].to_vec())
}

#[test]
fn reports() {
    with(A13, || {
        assert_eq!(report(&[], &T), Ok(vec![]));
        for (watch, place) in [
            ("[v >= _v]", -1),
            ("[v < 2]", 2),
            ("[v = 0] -> X([v = 1])", -1),
            ("[9 / i > 0]", 0),
            ("[9 / v > 0] -> X([1 = 1])", 1),
            ("[1 = 2] -> X([9 / (2 - v) > 0])", 2),
            ("[v = 2147483647 + 1]", 0),
            ("[1 mod 0 = 0]", -1),
            ("[v = 0 | 1 / 0 = 1]", 0),
            ("[_v = v]", 1),
            ("[_v = v] -> X([v = 1])", -1),
            ("[v = 2] -> X([i = 1])", 3),
        ] {
            assert_eq!(report(&[watch], &T), Ok(vec![place]), "{watch}");
        }
        let three = ["[i = 1] -> X([v > _v])", "[v < 2]", "[v = _v + i]"];
        assert_eq!(report(&three, &T), Ok(vec![3, 2, -1]));
        assert_eq!(
            report(&["[1 = 1] -> X([9 / v > 0])"], &[0, 0]),
            Ok(vec![-1])
        );
        // A value out of its range is no fault.
        assert_eq!(report(&["[v = 12]"], &[5, 12, -7, 12]), Ok(vec![-1]));
        assert_eq!(report(&["[_v = v]"], &[0, 3, 0, 4]), Ok(vec![1]));
        assert_eq!(report(&["[v < 2]"; 16], &T), Ok(vec![2; 16]));
    });
}

/// "after the text's, 12 as in A.12"
#[test]
fn lengths() {
    with(A13, || {
        assert_eq!(report(&["[v < 2]"], &[]), Err(12));
        assert_eq!(report(&["[v < 2]"], &[0, 0, 1]), Err(12));
        let text = format!("{P}watch: G([v < 2]);");
        for length in [0, 15, 17] {
            let mut report = vec![7; length];
            let answer = write_report(text.as_bytes(), &T, &mut report);
            assert_eq!(answer, Err(Refusal::new(12, 0)));
            assert_eq!(report, vec![7; length]);
        }
        assert_eq!(write_report(b"$", &[], &mut []), Err(Refusal::new(1, 0)));
        // Without names nothing lent is the start alone.
        assert_eq!(report_of("watch: G([1 = 2]);", &[]), Ok(vec![0]));
        assert_eq!(report_of("watch: G([1 = 2]);", &[5]), Err(12));
        let pair = "watch: G([1 = 1] -> X([1 = 2]));";
        assert_eq!(report_of(pair, &[]), Ok(vec![-1]));
    });
}

#[test]
fn refused_texts() {
    let declared = "input i 0..1; var v 0..9; ";
    with(A13, || {
        expect(0, &format!("{P}watch: G([v < 2] -> X([_v < v]));"));
        expect(6, &format!("{declared}watch: G([v < 2]);@"));
        expect(6, &format!("{declared}watch: G([v < 2]);  @"));
        expect(4, &format!("{declared}watch: G([@zz"));
        expect(2, &format!("{declared}watch: G([v < 2]); @v: GX"));
        for rest in [
            "watch: G([v < 2@)",
            "watch: G(@v",
            "watch: @g(",
            "watch: G([v < 2] -> @[",
            "watch: G([v < 2] -> X(@v",
            "watch: @GX(",
            "watch @G",
            "watch: G([v < 2])@)",
            "watch: G([v < 2] -> X([v < 2])@;",
            "watch: G([v < 2] @; ",
            "watch: G(@~[v < 2]);",
        ] {
            expect(2, &format!("{P}{rest}"));
        }
        expect(2, &format!("{P}watch: G([v < 2@"));
        expect(2, "input @X 0..1;");
        expect(2, "input @G 0..1;");
        expect(2, "input @watch 0..1;");
        expect(1, "var v 0..1; v: GX(v = (@_X));");
        expect(8, &format!("{P}watch: G([@{} = 1]);", "a".repeat(17)));
        expect(3, &format!("{P}watch: G([v = @2147483648]);"));
    });
    with(Features::ALL, || {
        expect(2, "input @x 0..1;");
        expect(1, "var v 0..1; v: GX(v = (@_x));");
        expect(2, &format!("{P}@Watch: G("));
        expect(0, &format!("{P}watch: G([V < 2]);"));
    });
    with(Features::NONE, || {
        expect(4, &format!("{P}@watch: G("));
        expect(0, "input watch 0..1; input G 0..1; input X 0..1;");
    });
}

/// "30 a 17th watch, at its word", and the brackets that are counted.
#[test]
fn limits() {
    with(A13, || {
        let watches = |separator: &str, count| vec!["watch: G([v < 2]);"; count].join(separator);
        let rules = P.trim_end();
        let spaced = |count| format!("{rules} {}", watches(" ", count)).into_bytes();
        assert_eq!(answer(&spaced(16)), (0, 0));
        assert_eq!(answer(&spaced(17)), (30, 351));
        let close = |count| format!("{rules} {}", watches("", count)).into_bytes();
        assert_eq!(answer(&close(17)), (30, 335));
        let nested = |depth: usize| {
            let (open, close) = ("[".repeat(depth), "]".repeat(depth));
            format!("{open}v < 2{close}")
        };
        let sixteen = nested(16);
        assert_eq!(report(&[&format!("[{sixteen}]")], &T), Ok(vec![2]));
        let both = format!("[{sixteen}] -> X([{sixteen}])");
        assert_eq!(report(&[&both], &T), Ok(vec![2]));
        let marked = nested(17).replacen(&"[".repeat(17), &format!("{}@[", "[".repeat(16)), 1);
        expect(8, &format!("{P}watch: G([{marked}]);"));
        expect(8, &format!("{P}watch: G([{sixteen}] -> X([{marked}]));"));
    });
}

#[test]
fn timers_and_elapsed_times() {
    with(Features::ALL, || {
        let text = "var w 0..1; timer t of w limit 5; w: GX(w = (1)); \
            watch: G([t = 0]); watch: G([_w = 1] -> X([t = 1]));";
        let trace = [0, 0, 0, 1, 0, 0, 1, 0, 3, 1, 1, 5];
        assert_eq!(report_of(text, &trace), Ok(vec![3, -1]));
        assert_eq!(report_of(text, &trace[..4]), Err(12));
    });
}

/// "Image, ST and printed trace hold no watches".
#[test]
fn other_services() {
    with(A13, || {
        let watched = format!("{P}watch: G([v < 2]); watch: G([v < 2] -> X([v < 2]));");
        let wanted = "01 01 00 02 00 00 12 00 03 01 02 00 04 15 01";
        assert_eq!(hex(&image(P)), wanted);
        assert_eq!(hex(&image(&watched)), wanted);
        let [plain, more] = [P, &watched].map(|text| read_text(text.as_bytes()).expect("accepted"));
        assert_eq!(write_structured_text(&plain), write_structured_text(&more));
        let rows = "\n#\n1\n0\n";
        let traces = [P, &watched].map(|text| trace(format!("{text}{rows}").as_bytes()));
        assert_eq!(traces[0], traces[1]);
    });
}

/// Whether each condition holds at a place, found without the watches: a variable `q` that
/// is ruled last is 1 where the condition holds. None for 14.
fn by_scan(
    parts: &WatchParts,
    condition: &[Vec<u8>],
    before: &[i32],
    line: &[i32],
) -> Option<bool> {
    let words = |text: &str| -> Vec<Vec<u8>> {
        text.split(' ')
            .map(|word| word.as_bytes().to_vec())
            .collect()
    };
    let starts = |tokens: &[Vec<u8>]| matches!(&tokens[0][..], b"input" | b"var");
    let ends: Vec<usize> = (0..parts.rules.len())
        .filter(|&k| parts.rules[k] == b";")
        .collect();
    let declared = ends
        .iter()
        .scan(0, |from, &end| {
            Some((std::mem::replace(from, end + 1), end))
        })
        .take_while(|&(from, _)| starts(&parts.rules[from..]));
    let names = declared.clone().count();
    let at = declared.last().map_or(0, |(_, end)| end + 1);
    let mut tokens = parts.rules.clone();
    tokens.extend(words("q : GX ( ~ ( q = _q ) -> ["));
    tokens.extend_from_slice(condition);
    tokens.extend(words("] & q = ( 1 ) ) ; q : GX ( q = _q -> ~ ( ["));
    tokens.extend_from_slice(condition);
    tokens.extend(words("] ) ) ;"));
    tokens.splice(at..at, words("var q 0 .. 1 ;"));
    let text = tokens.join(&b" "[..]);
    let image = write_image(&read_text(&text).expect("an accepted text"));
    let mut state = before.to_vec();
    state.insert(names, 0);
    match scan(&image, &mut state, line) {
        Ok(_) => Some(state[names] == 1),
        Err(refusal) => {
            assert_eq!(refusal.number, 14);
            None
        }
    }
}

/// States found by scans, with the accepted rows.
fn found(rng: &mut Rng, program: &Program) -> (Vec<Vec<i32>>, Vec<Vec<i32>>) {
    let image = write_image(program);
    let mut states = vec![program.starts()];
    let mut rows = Vec::new();
    for _ in 0..6 {
        let line = row(rng, &program.row_ranges());
        let mut next = states[states.len() - 1].clone();
        if scan(&image, &mut next, &line).is_ok() {
            states.push(next);
            rows.push(line);
        }
    }
    (states, rows)
}

/// The reports on a trace found, against scans; places after the start only, since no scan
/// comes to the start with its own values as previous ones.
#[test]
fn reports_by_scans() {
    for features in [A13, Features::ALL] {
        with(features, reports_by_scans_in_force);
    }
}

fn reports_by_scans_in_force() {
    let mut met = [0; 4];
    for seed in 0..1500 {
        let mut rng = Rng::new(120_000_000 + seed);
        let shape = *rng.choose(&[Shape::TINY, Shape::SMALL]);
        let parts = watch_parts(&mut rng, shape, 3);
        let text = render(&mut rng, &parts.tokens());
        let program = read_text(&text).expect("an accepted text");
        if program.names.is_empty() {
            // A trace without names has the start alone.
            continue;
        }
        let (states, rows) = found(&mut rng, &program);
        let reported = watch(&text, &states.concat()).expect("a report");
        assert_eq!(reported.len(), parts.watches.len());
        for ((first, then), place) in parts.watches.iter().zip(reported) {
            let worth = |condition: &[Vec<u8>], place: usize| {
                by_scan(&parts, condition, &states[place - 1], &rows[place - 1])
            };
            let fails = |place: usize| match then {
                None => worth(first, place) != Some(true),
                Some(then) => match (worth(first, place - 1), worth(then, place)) {
                    (Some(first), Some(then)) => first && !then,
                    _ => true,
                },
            };
            let least = if then.is_some() { 2 } else { 1 };
            if place.is_some_and(|place| place < least) {
                met[0] += 1;
                continue;
            }
            let wanted = (least..states.len()).find(|&place| fails(place));
            assert_eq!(place, wanted, "{}", String::from_utf8_lossy(&text));
            let kind = match (place, then) {
                (None, _) => 1,
                (Some(_), None) => 2,
                (Some(_), Some(_)) => 3,
            };
            met[kind] += 1;
        }
    }
    println!("{met:?}");
    assert!(met.iter().all(|&count| count > 20), "{met:?}");
}

/// A report depends on the text's watches only; each watch reports as it does alone; a
/// longer trace never moves a failure.
#[test]
fn each_watch_by_itself() {
    landed_and_all(|| {
        if in_force().watches {
            alone_in_force();
        }
    });
    with(A13, alone_in_force);
}

fn alone_in_force() {
    let mut failed = 0;
    for seed in 0..800 {
        let mut rng = Rng::new(121_000_000 + seed);
        let shape = Shape::any(&mut rng);
        let parts = watch_parts(&mut rng, shape, 5);
        let text = render(&mut rng, &parts.tokens());
        let program = read_text(&text).expect("an accepted text");
        let lent = watched_trace(&mut rng, &program);
        let whole = lent.len().checked_rem(program.state_length());
        let reported = watch(&text, &lent);
        let right = whole.map_or(lent.is_empty(), |rest| rest == 0 && !lent.is_empty());
        assert_eq!(reported.is_ok(), right);
        let Ok(reported) = reported else { continue };
        for (single, place) in parts.watches.iter().zip(&reported) {
            let one = WatchParts {
                rules: parts.rules.clone(),
                watches: vec![single.clone()],
            };
            let text = render(&mut rng, &one.tokens());
            assert_eq!(watch(&text, &lent), Ok(vec![*place]));
            let Some(place) = *place else { continue };
            let enough = (place + 1) * program.state_length();
            assert_eq!(watch(&text, &lent[..enough]), Ok(vec![Some(place)]));
            failed += 1;
        }
        let mut buffers = [[0u8; 65_536], [0; 65_536]];
        let bare = render(&mut rng, &parts.rules);
        let [first, second] = &mut buffers;
        assert_eq!(translate(&bare, first), translate(&text, second));
        assert_eq!(first, second);
    }
    assert!(failed > 300, "{failed}");
}
