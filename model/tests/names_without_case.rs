//! Request A.2: names without letter case.

mod common;

use common::{answer, expect, hex, image};
use rolvenko_model::features::with;
use rolvenko_model::generate::{
    mutated_text, render, text, text_tokens, token_soup, vary_names, Rng, Shape,
};
use rolvenko_model::token::{tokens, Kind};
use rolvenko_model::{
    clock, read_text, scan, structured_text, trace, write_image, Features, Refusal,
};

const A2: Features = Features {
    names_without_case: true,
    ..Features::NONE
};

const D: &str = "input Go 0..1; var run 0..1; ";
const C: &str = "RUN: GX(~(Run = _rUn) -> [_RUN = 0 & GO = 1] & ruN = (go)); ";
const N: &str = "run: GX(run = _run -> ~([_run = 0 & go = 1])); ";
/// The beginning of N, up to its list.
const LIST: &str = "run: GX(run = _run -> ~(";

#[test]
fn one_name() {
    with(A2, || {
        let text = format!("{D}{C}{N}");
        let image = image(&text);
        let wanted =
            "01 01 00 02 00 00 02 00 03 01 01 00 0A 02 00 01 02 0A 11 13 02 00 14 01 16 01";
        assert_eq!(hex(&image), wanted);
        let mut state = [0, 0];
        assert_eq!(scan(&image, &mut state, &[1]), Ok(11));
        assert_eq!(state, [1, 1]);
        assert_eq!(scan(&image, &mut state, &[0]), Ok(11));
        assert_eq!(state, [0, 1]);
        // "The trace prints the declared spelling."
        let printed = trace(format!("{text}\n#\n1\n").as_bytes());
        assert_eq!(printed, b"scan Go run result\n0 0 0 0\n1 1 1 0\n");
        let long = "a".repeat(16);
        let mixed = format!(
            "var {long} 0..1; {}: GX(aaaaaaaaAAAAAAAA = (0));",
            "A".repeat(16)
        );
        assert_eq!(hex(&common::image(&mixed)), "00 01 00 02 00 01 00 15 00");
    });
}

#[test]
fn refusals_of_names() {
    with(A2, || {
        expect(4, "input a 0..1; input @A 0..1;");
        expect(4, "input day 0..9; input @Day 0..9;");
        expect(7, &format!("{D}{C}{LIST}[_run = @00"));
        expect(7, &format!("{D}{C}{LIST}[@go"));
        expect(6, &format!("{D}@gO:"));
        expect(6, &format!("{D}{C}{N}@RUN:"));
        expect(5, "var A 0..1; var b 0..1; a: GX(A = (@B));");
        expect(8, &format!("var @{} 0..1;", "a".repeat(17)));
        expect(2, &format!("{D}{C}@goo"));
        expect(2, &format!("{D}run: GX(@RUNS"));
        // Bytes beside the letters are not read as letters: 64, 96, 123.
        assert_eq!(answer(b"var v@ 0..1;"), (1, 5));
        expect(1, "var a@{ 0..1;");
        expect(1, "var a@` 0..1;");
        expect(1, "var a@[".replace('[', "\u{7f}").as_str());
    });
}

#[test]
fn words_in_another_case() {
    with(A2, || {
        expect(2, "@Input a");
        expect(2, "input @Var 0..1;");
        expect(2, "input a 0..1 @INIT 0;");
        expect(2, "var v 0..1; v: @gx(");
        expect(2, "var v 0..1; v: GX(v = (_v @MOD 2));");
        expect(2, "var v 0..1; v: GX(v = (@Mod));");
        expect(2, &format!("{D}{C}{LIST}[_run = 0 & go = 1 @Mod"));
        let modulo = "var v 0..1; v: GX(~(v = _v) -> [_v mod 2 = 0] & v = (1)); v: GX(v = _v -> ~(";
        expect(2, &format!("{modulo}[_v @MOD 2 = 0]));"));
        expect(0, &format!("{modulo}[_V mod 2 = 0]));"));
        expect(1, "var v 0..1; v: GX(v = (@_Mod));");
        expect(1, &format!("{D}{C}{LIST}[@_MOD"));
        expect(1, "@_iNPUT");
        // Words of other requests only where those are on.
        expect(0, "input moda 0..1; input limit 0..1; input Timer 0..1;");
        expect(0, "input watch 0..1; input g 0..1; input X 0..1;");
    });
    with(Features::NONE, || {
        expect(
            0,
            "input Input 0..1; input gx 0..1; input a 0..1; input A 0..1;",
        );
        expect(4, &format!("{D}@RUN: GX("));
    });
}

/// "A.1's three", and 21 of A.4, which prints names as declared.
#[test]
fn other_services() {
    with(A2, || {
        let text = b"input DAY 0..1; input Minute 0..1; input AGAIN 0..1;";
        let mut row = [7, 7, 7];
        assert_eq!(clock(text, &[0, 60], 1439, &mut row), Ok(()));
        assert_eq!(row, [1, 59, 0]);
        let mut out = [0; 200];
        let text = format!("{D}{C}{N}");
        let length = structured_text(text.as_bytes(), &mut out).expect("an ST");
        let st = String::from_utf8_lossy(&out[..length]);
        let rules =
            "IF ((_run = 0) AND (Go = 1)) THEN\n  run := Go;\nEND_IF;\n_Go := Go;\n_run := run;\n";
        assert!(st.ends_with(rules), "{st}");
        let reserved = structured_text(b"input a 0..1; input thEN 0..1;", &mut out);
        assert_eq!(reserved, Err(Refusal::new(21, 20)));
    });
}

/// A text of any kind.
fn some_text(rng: &mut Rng, seed: u64) -> Vec<u8> {
    let shape = Shape::any(rng);
    match seed % 6 {
        0 => text(rng, shape),
        1 => token_soup(rng, 15),
        _ => mutated_text(rng, shape),
    }
}

/// Changes the case of every name token at random, at the same places.
fn other_names(rng: &mut Rng, text: &[u8], change: impl Fn(&mut Rng, &mut u8)) -> Vec<u8> {
    let mut changed = text.to_vec();
    for token in tokens(text) {
        if matches!(token.kind, Kind::Name | Kind::Previous) {
            let span = token.place..token.place + token.spelling.len();
            changed[span].iter_mut().for_each(|byte| change(rng, byte));
        }
    }
    changed
}

/// A random case of every name token: the same number, place and image.
#[test]
fn the_case_of_names_has_no_influence() {
    let sets = Features::sets()
        .into_iter()
        .filter(|set| set.names_without_case);
    for (index, features) in sets.enumerate() {
        with(features, || {
            let mut met = [0; 40];
            for seed in 0..4000 {
                let mut rng = Rng::new(110_000_000 + 10_000 * index as u64 + seed);
                let text = some_text(&mut rng, seed);
                let changed = other_names(&mut rng, &text, |rng, byte| {
                    if byte.is_ascii_alphabetic() {
                        *byte ^= (rng.below(2) as u8) << 5;
                    }
                });
                assert_eq!(answer(&changed), answer(&text));
                let images = [&text, &changed].map(|text| read_text(text).map(|p| write_image(&p)));
                assert_eq!(images[0], images[1]);
                met[answer(&text).0 as usize] += 1;
            }
            assert!(met[..9].iter().all(|&count| count > 5), "{met:?}");
        });
    }
}

/// "Accepted texts are those of document 01 under this sameness and this rule for words":
/// with all names in capitals the answer is that of document 01 alone.
#[test]
fn capitals_are_as_before() {
    let mut met = [0; 11];
    for seed in 0..6000 {
        let mut rng = Rng::new(111_000_000 + seed);
        let (text, capitals, found) = with(A2, || {
            let text = some_text(&mut rng, seed);
            let capitals = other_names(&mut rng, &text, |_, byte| byte.make_ascii_uppercase());
            let found = answer(&capitals);
            (text, capitals, found)
        });
        if with(A2, || {
            tokens(&text).iter().any(|t| t.kind == Kind::OtherCase)
        }) {
            continue;
        }
        assert_eq!(with(Features::NONE, || answer(&capitals)), found);
        met[found.0 as usize] += 1;
    }
    assert!(met[..9].iter().all(|&count| count > 5), "{met:?}");
}

/// A grammar word in another case is 2 at its place, or 1 at a `_` directly before it,
/// whatever follows, if nothing before it is at fault.
#[test]
fn a_word_in_another_case() {
    let (mut two, mut one) = (0, 0);
    for seed in 0..3000 {
        let mut rng = Rng::new(112_000_000 + seed);
        with(A2, || {
            let mut list = text_tokens(&mut rng, Shape::SMALL);
            vary_names(&mut rng, &mut list);
            let mut word = *rng.choose(&["Input", "VAR", "iNIT", "Mod", "gx", "Gx", "mOD"]);
            let underscored = format!("_{word}");
            let lone = rng.chance(30);
            word = if lone { &underscored } else { word };
            let at = rng.below(list.len() + 1);
            list.insert(at, word.as_bytes().to_vec());
            let text = render(&mut rng, &list);
            let place = tokens(&text)[at].place;
            let number = if lone { 1 } else { 2 };
            assert_eq!(answer(&text), (number, place));
            two += usize::from(!lone);
            one += usize::from(lone);
        });
    }
    assert!(one > 500 && two > 1500);
}
