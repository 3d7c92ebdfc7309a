//! Request A.6: rising and falling formulas.

mod common;

use common::{answer, expect, hex, image};
use rolvenko_model::features::with;
use rolvenko_model::{
    check, closed, instructions, plain_scan, read_text, satisfies, scan, write_structured_text,
    Features, Refusal,
};

const A6: Features = Features {
    pairs: true,
    ..Features::NONE
};

const D: &str = "input i 0..1; var v 0..5; ";
const U: &str = "v+: GX(v > _v -> [i = 1 & _v < 5] & v = (_v + 1)); ";
const W: &str = "v-: GX(v < _v -> [i = 0 & _v > 0] & v = (_v - 1)); ";

/// The steps and the state of a scan, or the number and steps of its refusal; the plain scan
/// does the same.
fn scanned(text: &str, state: &[i32], row: &[i32]) -> Result<(u32, Vec<i32>), (u8, u32)> {
    let program = read_text(text.as_bytes()).expect("accepted text");
    let (mut found, mut plain) = (state.to_vec(), state.to_vec());
    let answer = scan(&image(text), &mut found, row);
    let plain_answer = plain_scan(&program, &mut plain, row);
    assert_eq!(plain, found);
    assert_eq!(plain_answer.err(), answer.err().map(|r| r.number));
    match answer {
        Ok(steps) => Ok((steps, found)),
        Err(refusal) => Err((refusal.number, refusal.steps)),
    }
}

#[test]
fn counter() {
    with(A6, || {
        let text = format!("{D}{U}{W}");
        for (state, row, left) in [
            ([0, 0], 1, [1, 1]),
            ([1, 1], 0, [0, 0]),
            ([0, 5], 1, [1, 5]),
            ([0, 0], 0, [0, 0]),
        ] {
            assert_eq!(scanned(&text, &state, &[row]), Ok((25, left.to_vec())));
        }
    });
}

#[test]
fn climb() {
    with(A6, || {
        let text = format!(
            "{D}v +: GX(v > _v -> [i = 1] & v = (5)) ; v - : GX(v < _v -> [i = 0] & v = (0));"
        );
        assert_eq!(
            hex(&image(&text)),
            "01 01 00 02 00 00 0A 00 02 00 01 02 0A 13 01 0A 18 01 \
             02 00 01 00 0A 13 01 00 19 01 16 01"
        );
        assert_eq!(scanned(&text, &[0, 0], &[1]), Ok((13, vec![1, 5])));
        assert_eq!(scanned(&text, &[1, 5], &[1]), Err((22, 6)));
        assert_eq!(scanned(&text, &[1, 5], &[0]), Ok((13, vec![0, 0])));
        assert_eq!(scanned(&text, &[0, 0], &[0]), Err((22, 12)));
    });
}

#[test]
fn refused_texts() {
    let long = "a".repeat(17);
    with(A6, || {
        for (number, rest) in [
            (0, format!("{U}{W}")),
            (2, format!("{U}@")),
            (2, "v@-".into()),
            (2, format!("{U}v@:")),
            (2, format!("{U}v@+")),
            (2, format!("{U}@i-:")),
            (2, format!("{U}@{long}-:")),
            (2, "v+: GX(v @< _v".into()),
            (2, "v+: GX(v @>= _v".into()),
            (2, "v+: GX(@~".into()),
            (2, "v+: GX(v > _v -> @)".into()),
            (2, format!("{U}v-: GX(v @> _v")),
            (2, "v+ @GX".into()),
            (2, "v+: GX(@i".into()),
            (2, "v+: GX(v > @_i".into()),
            (2, "v+: GX(v > @v".into()),
            (6, format!("{U}{W}@v:")),
            (6, format!("{U}{W}@v+:")),
            (6, "@i+".into()),
            (4, "@zz+".into()),
            (8, format!("@{long}+")),
            (5, "v+: GX(v > _v -> [@v".into()),
            (5, format!("{U}v-: GX(v < _v -> [@v")),
            (5, format!("{U}v-: GX(v < _v -> [i = 1] & v = (@v)")),
        ] {
            expect(number, &format!("{D}{rest}"));
        }
        // Names have one letter case here, and any with A.2.
        expect(2, &format!("{D}v+: GX(@V > _v"));
    });
    with(Features::ALL, || {
        expect(0, &format!("{D}V+: GX(v > _V -> [1 = 2] & v = (1)); {W}"));
    });
    with(Features::NONE, || {
        expect(2, &format!("{D}v@+: GX(v > _v"));
    });
}

/// "at most 32 in the two together"
#[test]
fn cases() {
    let text = |up: usize, down: usize| {
        let list = |count: usize| vec!["[_v = 0] & v = (1)"; count].join(" | ");
        let (up, down) = (list(up), list(down));
        format!("{D}v+: GX(v > _v -> {up}); v-: GX(v < _v -> {down});").into_bytes()
    };
    with(A6, || {
        assert_eq!(answer(&text(31, 1)), (0, 0));
        assert_eq!(answer(&text(1, 31)), (0, 0));
        assert_eq!(answer(&text(31, 2)), (8, 732));
        assert_eq!(answer(&text(32, 1)), (8, 732));
        assert_eq!(answer(&text(33, 1)), (8, 715));
    });
}

/// "22 a rising pick at or below the previous value, or a falling one at or above it, in
/// place of 16 and before 17"
#[test]
fn wrong_directions() {
    with(A6, || {
        let text = "var v 0..5; v+: GX(v > _v -> [_v < 3] & v = (_v)); \
            v-: GX(v < _v -> [_v >= 3] & v = (9));";
        assert_eq!(scanned(text, &[0], &[]), Err((22, 6)));
        // 9 is outside the range too.
        assert_eq!(scanned(text, &[3], &[]), Err((22, 12)));
        assert_eq!(scanned(text, &[5], &[]), Err((22, 12)));
        let text = "input i 0..3; var v 0..9 init 5; v+: GX(v > _v -> [i = 1] & v = (_v + 1) | \
            [i = 3] & v = (_v)); v-: GX(v < _v -> [i = 2] & v = (_v - 6) | [i >= 3] & v = (_v + 7));";
        assert_eq!(scanned(text, &[0, 5], &[1]), Ok((31, vec![1, 6])));
        assert_eq!(scanned(text, &[0, 5], &[2]), Err((17, 22)));
        assert_eq!(scanned(text, &[0, 5], &[3]), Err((22, 14)));
        assert_eq!(scanned(text, &[0, 5], &[0]), Ok((31, vec![0, 5])));
        assert_eq!(scanned(text, &[0, 9], &[1]), Err((17, 8)));
        assert_eq!(scanned(text, &[0, 9], &[2]), Ok((31, vec![2, 3])));
        // 15 over both lists, at the second gate, before its value.
        let text = "var v 0..9; v+: GX(v > _v -> [1 = 1] & v = (_v + 1)); \
            v-: GX(v < _v -> [1 = 1] & v = (1 / 0));";
        assert_eq!(scanned(text, &[0], &[]), Err((15, 12)));
    });
}

/// A pick with its condition and value, then the settle, after a header of one variable.
fn picks(codes: &[u8]) -> Vec<u8> {
    let mut image = vec![0, 1, 0, 2, 0];
    for &code in codes {
        image.extend([1, 0, 1, 0, 10, 19, 1, 0, code, 0]);
    }
    [image, vec![22, 0]].concat()
}

#[test]
fn images() {
    let broken = |place| Err(Refusal::new(11, place));
    with(A6, || {
        for sound in [&[20][..], &[20, 20], &[24, 25], &[24, 24, 25, 25]] {
            assert_eq!(check(&picks(sound)), Ok(()));
            assert_eq!(instructions(&picks(sound)), 6 * sound.len() + 1);
        }
        for (codes, place) in [
            (&[25][..], 13),
            (&[24], 15),
            (&[24, 20], 23),
            (&[20, 24], 23),
            (&[20, 25], 23),
            (&[24, 25, 24], 33),
            (&[24, 25, 20], 33),
        ] {
            assert_eq!(check(&picks(codes)), broken(place), "{codes:?}");
        }
        let with_let = [&picks(&[24])[..15], &[1, 0, 21, 0]].concat();
        assert_eq!(check(&with_let), broken(17));
        assert_eq!(check(&picks(&[24])[..14]), broken(13));
        assert_eq!(check(&[0, 1, 0, 2, 0, 24, 0]), broken(5));
        let of_input = [&[1, 1, 0, 2, 0, 0, 2, 0], &picks(&[24])[5..]].concat();
        assert_eq!(check(&of_input), broken(16));
    });
    with(Features::NONE, || {
        assert_eq!(check(&picks(&[24, 25])), broken(13))
    });
}

/// The formulas as read: the change formula over both lists with its no-change formula.
#[test]
fn formulas() {
    with(A6, || {
        let text = format!("{D}{U}{W}");
        let program = read_text(text.as_bytes()).expect("accepted text");
        assert!(satisfies(&program, &[[0, 0], [1, 1], [1, 2], [0, 1]]));
        assert!(!satisfies(&program, &[[0, 0], [1, 0]]));
        assert!(!satisfies(&program, &[[0, 3], [1, 2]]));
        assert!(!satisfies(&program, &[[0, 3], [0, 3]]));
        assert!(!satisfies(&program, &[[0, 3], [0, 4]]));
    });
}

/// A pair prints as one IF block; a profile that meets 22 is not closed.
#[test]
fn other_services() {
    with(A6, || {
        let text = format!("{D}{U}{W}");
        let program = read_text(text.as_bytes()).expect("accepted text");
        let st = write_structured_text(&program);
        let rule = "IF ((i = 1) AND (_v < 5)) THEN\n  v := (_v + 1);\n\
            ELSIF ((i = 0) AND (_v > 0)) THEN\n  v := (_v - 1);\nEND_IF;\n";
        assert!(st.contains(rule), "{st}");
        assert_eq!(closed(&image(&text)), Ok(()));
        let climb = "var v 0..5; v+: GX(v > _v -> [_v < 5] & v = (5)); \
            v-: GX(v < _v -> [_v = 5] & v = (5));";
        let refusal = closed(&image(climb)).expect_err("22 at 5").refusal;
        assert_eq!(refusal, Refusal::new(27, 5));
    });
}
