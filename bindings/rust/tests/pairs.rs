//! Document 02, A.6: rising and falling formulas, their scans and their images.

use rolvenko::{check, scan, translate, Refusal, IMAGE_ROOM};

const D: &str = "input i 0..1; var v 0..5; ";
const U: &str = "v+: GX(v > _v -> [i = 1 & _v < 5] & v = (_v + 1)); ";
const W: &str = "v-: GX(v < _v -> [i = 0 & _v > 0] & v = (_v - 1)); ";

fn translated(text: &str) -> Result<Vec<u8>, Refusal> {
    let mut image = vec![0; IMAGE_ROOM];
    let length = translate(text.as_bytes(), &mut image)?;
    image.truncate(length);
    Ok(image)
}

/// The steps and the state left, or the number and steps of a refusal, which leaves the state.
fn scanned(text: &str, found: &[i32], row: &[i32]) -> Result<(u32, Vec<i32>), (u8, u32)> {
    let image = translated(text).expect("an accepted text");
    let mut state = found.to_vec();
    match scan(&image, &mut state, row) {
        Ok(steps) => Ok((steps, state)),
        Err(refusal) => {
            assert_eq!(state, found);
            Err((refusal.number, refusal.steps))
        }
    }
}

/// `@` marks the place of the refusal and is not part of the text.
fn refused(number: u8, marked: &str) {
    let place = marked.find('@').expect("a mark");
    let text = marked.replacen('@', "", 1);
    assert_eq!(translated(&text), Err(Refusal { number, place }), "{marked}");
}

#[test]
fn a_counter() {
    let text = format!("{D}{U}{W}");
    for (found, row, left) in [([0, 0], 1, [1, 1]), ([1, 1], 0, [0, 0]), ([0, 5], 1, [1, 5]), ([0, 0], 0, [0, 0])] {
        assert_eq!(scanned(&text, &found, &[row]), Ok((25, left.to_vec())));
    }
}

#[test]
fn to_five_and_back() {
    let text = format!("{D}v +: GX(v > _v -> [i = 1] & v = (5)) ; v - : GX(v < _v -> [i = 0] & v = (0));");
    let header = [1, 1, 0, 2, 0, 0, 10, 0];
    let rising = [2, 0, 1, 2, 10, 19, 1, 10, 24, 1];
    let falling = [2, 0, 1, 0, 10, 19, 1, 0, 25, 1];
    assert_eq!(translated(&text), Ok([&header[..], &rising, &falling, &[22, 1]].concat()));
    assert_eq!(scanned(&text, &[0, 0], &[1]), Ok((13, vec![1, 5])));
    assert_eq!(scanned(&text, &[1, 5], &[1]), Err((22, 6)));
    assert_eq!(scanned(&text, &[1, 5], &[0]), Ok((13, vec![0, 0])));
    assert_eq!(scanned(&text, &[0, 0], &[0]), Err((22, 12)));
}

#[test]
fn refused_texts() {
    let long = "a".repeat(17);
    assert!(translated(&format!("{D}V+: GX(v > _V -> [1 = 2] & v = (1)); {W}")).is_ok());
    for (number, rest) in [
        (2, format!("{U}@")),
        (2, "v@-".into()),
        (2, format!("{U}v@:")),
        (2, format!("{U}v@+")),
        (2, format!("{U}@i-:")),
        (2, format!("{U}@{long}-:")),
        (2, "v+: GX(v @< _v".into()),
        (2, "v+: GX(v @>= _v".into()),
        (2, "v+: GX(@~".into()),
        (2, "v+: GX(v > _v -> @)".into()),
        (2, format!("{U}v-: GX(v @> _v")),
        (2, "v+ @GX".into()),
        (6, format!("{U}{W}@v:")),
        (6, "@i+".into()),
        (4, "@zz+".into()),
        (5, format!("{U}v-: GX(v < _v -> [@v")),
        (5, format!("{U}v-: GX(v < _v -> [i = 1] & v = (@v)")),
    ] {
        refused(number, &format!("{D}{rest}"));
    }
}

#[test]
fn thirty_two_cases_in_the_two_lists() {
    let text = |up: usize, down: usize| {
        let list = |count: usize| vec!["[_v = 0] & v = (1)"; count].join(" | ");
        format!("{D}v+: GX(v > _v -> {}); v-: GX(v < _v -> {});", list(up), list(down))
    };
    assert!(translated(&text(31, 1)).is_ok());
    assert!(translated(&text(1, 31)).is_ok());
    for (up, down, place) in [(31, 2, 732), (32, 1, 732), (33, 1, 715)] {
        assert_eq!(translated(&text(up, down)), Err(Refusal { number: 8, place }));
    }
}

#[test]
fn twenty_two_in_place_of_sixteen_and_before_seventeen() {
    let text = "var v 0..5; v+: GX(v > _v -> [_v < 3] & v = (_v)); v-: GX(v < _v -> [_v >= 3] & v = (9));";
    assert_eq!(scanned(text, &[0], &[]), Err((22, 6)));
    assert_eq!(scanned(text, &[3], &[]), Err((22, 12)));
    assert_eq!(scanned(text, &[5], &[]), Err((22, 12)));
    let text = "input i 0..3; var v 0..9 init 5; v+: GX(v > _v -> [i = 1] & v = (_v + 1) | [i = 3] & v = (_v)); \
        v-: GX(v < _v -> [i = 2] & v = (_v - 6) | [i >= 3] & v = (_v + 7));";
    assert_eq!(scanned(text, &[0, 5], &[1]), Ok((31, vec![1, 6])));
    assert_eq!(scanned(text, &[0, 5], &[2]), Err((17, 22)));
    assert_eq!(scanned(text, &[0, 5], &[3]), Err((22, 14)));
    assert_eq!(scanned(text, &[0, 5], &[0]), Ok((31, vec![0, 5])));
    assert_eq!(scanned(text, &[0, 9], &[1]), Err((17, 8)));
    assert_eq!(scanned(text, &[0, 9], &[2]), Ok((31, vec![2, 3])));
}

/// Picks with their conditions and values, then the settle, after a header of one variable.
fn picks(codes: &[u8]) -> Vec<u8> {
    let mut image = vec![0, 1, 0, 2, 0];
    for &code in codes {
        image.extend([1, 0, 1, 0, 10, 19, 1, 0, code, 0]);
    }
    [image, vec![22, 0]].concat()
}

#[test]
fn order_of_picks() {
    let broken = |place| Err(Refusal { number: 11, place });
    for sound in [&[20][..], &[20, 20], &[24, 25], &[24, 24, 25, 25]] {
        assert_eq!(check(&picks(sound)), Ok(()));
    }
    let wrong = [(&[25][..], 13), (&[24], 15), (&[24, 20], 23), (&[20, 24], 23), (&[20, 25], 23), (&[24, 25, 24], 33), (&[24, 25, 20], 33)];
    for (codes, place) in wrong {
        assert_eq!(check(&picks(codes)), broken(place), "{codes:?}");
    }
    let with_let = [&picks(&[24])[..15], &[1, 0, 21, 0]].concat();
    assert_eq!(check(&with_let), broken(17));
    assert_eq!(check(&picks(&[24])[..14]), broken(13));
    assert_eq!(check(&[0, 1, 0, 2, 0, 24, 0]), broken(5));
    let of_input = [&[1, 1, 0, 2, 0, 0, 2, 0], &picks(&[24])[5..]].concat();
    assert_eq!(check(&of_input), broken(16));
}
