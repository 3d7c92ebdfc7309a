//! Request A.7: instruction 23 in images.

mod common;

use common::{expect, image};
use rolvenko_model::features::with;
use rolvenko_model::generate::{timer_image, Rng};
use rolvenko_model::{check, check_detail, scan, start, Features, Refusal};

const A7: Features = Features {
    timers: true,
    ..Features::NONE
};
/// One input and two variables of range 0..1: the code begins at 11.
const H: [u8; 11] = [1, 2, 0, 2, 0, 0, 2, 0, 0, 2, 0];
/// The let of variable 1.
const SET: [u8; 4] = [2, 0, 21, 1];

/// The place of the breach, if there is one.
fn place(image: &[u8]) -> Option<usize> {
    let refusal = check(image).err()?;
    assert_eq!(refusal.number, 11);
    Some(refusal.place)
}

/// The same of `H`, `SET` and more.
fn after_set(more: &[u8]) -> Option<usize> {
    place(&[&H[..], &SET, more].concat())
}

#[test]
fn limits_of_the_instruction() {
    with(A7, || {
        assert_eq!(after_set(&[23, 2, 1, 1]), None);
        assert_eq!(after_set(&[23, 2, 1, 255, 255, 255, 255, 7]), None);
        for broken in [
            &[23, 2, 1, 0][..],
            &[23, 2, 1, 0x80],
            &[23, 2, 1, 0x80, 0x80, 0x80, 0x80],
            &[23, 2, 0x81],
            &[23, 0x82],
            &[23, 2, 1, 0x80, 0x80, 0x80, 0x80, 8],
            &[23, 2, 1, 0x81, 0],
            &[23, 2, 1, 0x81],
            &[23, 2, 1],
            &[23, 2],
            &[23],
            &[23, 0, 1, 1],
            &[23, 1, 1, 1],
            &[23, 3, 1, 1],
            &[23, 2, 0, 1],
            &[23, 2, 3, 1],
        ] {
            assert_eq!(after_set(broken), Some(15), "{broken:?}");
        }
        // t of 0..2, t with start 1, w of 0..2; w may start at 1.
        for (at, value, found) in [
            (9, 4, Some(15)),
            (10, 2, Some(15)),
            (6, 4, Some(15)),
            (7, 2, None),
        ] {
            let mut image = [&H[..], &SET, &[23, 2, 1, 5]].concat();
            image[at] = value;
            assert_eq!(place(&image), found, "{at}");
        }
    });
    with(Features::NONE, || {
        assert_eq!(after_set(&[23, 2, 1, 1]), Some(15))
    });
}

/// Images with timers may land before texts with timers.
#[test]
fn images_without_texts() {
    let images = Features {
        timer_images: true,
        ..Features::NONE
    };
    with(images, || {
        let image = [&H[..], &SET, &[23, 2, 1, 5]].concat();
        assert_eq!(check(&image), Ok(()));
        let mut state = [1, 1, 0, 3];
        assert_eq!(scan(&image, &mut state, &[1, 2]), Ok(3));
        assert_eq!(state, [1, 1, 1, 5]);
        let text = "var w 0..1; @timer t of w limit 5; w: GX(w = (1));";
        expect(4, text);
        expect(0, "input timer 0..1; input of 0..1; input limit 0..1;");
    });
}

#[test]
fn places_of_the_instruction() {
    with(A7, || {
        let timer = [23, 2, 1, 5];
        let of = |code: &[&[u8]]| place(&[&H[..], &code.concat()].concat());
        let case = [1, 2, 1, 2, 10, 19];
        assert_eq!(of(&[&SET]), Some(15));
        assert_eq!(of(&[&SET, &timer, &timer]), Some(19));
        assert_eq!(of(&[&timer]), Some(11));
        assert_eq!(of(&[&SET[..2], &timer]), Some(13));
        assert_eq!(of(&[&SET, &timer, &[1, 0, 21, 2]]), Some(21));
        assert_eq!(of(&[&case, &timer]), Some(17));
        assert_eq!(of(&[&case, &[1, 2, 20, 1], &timer]), Some(21));
        assert_eq!(of(&[&case, &[1, 2, 20, 1, 22, 1], &timer]), None);
        // A t that is let is an ordinary variable.
        assert_eq!(of(&[&SET, &[1, 0, 21, 2]]), None);
        // t before w in the header.
        assert_eq!(of(&[&[2, 0, 21, 2], &[23, 1, 2, 1]]), None);
    });
    with(Features::ALL, || {
        let case = [1, 2, 1, 2, 10, 19, 1, 2];
        let pair = [
            &H[..],
            &case,
            &[24, 1],
            &case,
            &[25, 1, 22, 1],
            &[23, 2, 1, 5],
        ]
        .concat();
        assert_eq!(check(&pair), Ok(()));
    });
}

/// "timers of one w by id"; a fourth name, u.
#[test]
fn two_timers() {
    with(A7, || {
        let header = [1, 3, 0, 2, 0, 0, 2, 0, 0, 2, 0, 0, 2, 0];
        let of = |code: &[u8]| place(&[&header[..], &SET, code].concat());
        assert_eq!(of(&[23, 2, 1, 1, 23, 3, 1, 5]), None);
        assert_eq!(of(&[23, 3, 1, 5, 23, 2, 1, 1]), Some(22));
        assert_eq!(of(&[23, 2, 1, 1, 23, 3, 2, 5]), Some(22));
        assert_eq!(of(&[23, 2, 1, 1]), Some(22));
        assert_eq!(of(&[23, 2, 1, 1, 1, 0, 21, 3]), None);
        assert_eq!(of(&[1, 0, 23, 2, 1, 1]), Some(20));
        assert_eq!(of(&[1, 0, 21, 3, 23, 2, 1, 1]), Some(22));
        assert_eq!(of(&[2, 2]), Some(18));
        assert_eq!(of(&[23, 2, 1, 1, 2, 2, 21, 3]), None);
    });
}

/// Elapsed times stand "by timer id", whatever the order of the code.
#[test]
fn elapsed_by_id() {
    with(A7, || {
        let mut image = vec![1, 4];
        image.extend([0, 2, 0].repeat(5));
        image.extend([2, 0, 21, 4, 23, 3, 4, 3, 2, 0, 21, 2, 23, 1, 2, 5]);
        let header = check_detail(&image).expect("a sound image");
        assert_eq!((header.state_length(), header.row_length()), (7, 2));
        let mut state = [1, 0, 1, 0, 1, 0, 0];
        assert_eq!(scan(&image, &mut state, &[1, 4]), Ok(6));
        assert_eq!(state, [1, 0, 1, 1, 1, 4, 3]);
        for elapsed in [[5, 4], [6, 3]] {
            let mut state = [1, 0, 1, 0, 1, elapsed[0], elapsed[1]];
            assert_eq!(
                scan(&image, &mut state, &[1, 0]).map_err(|r| r.number),
                Err(18)
            );
        }
        let mut short = [0; 6];
        assert_eq!(start(&image, &mut short), Err(Refusal::new(12, 0)));
    });
}

/// The generator's images: most are sound, and those of a text are.
#[test]
fn generated() {
    with(A7, || {
        let sound = (0..1000)
            .filter(|&seed| check(&timer_image(&mut Rng::new(seed))).is_ok())
            .count();
        assert!((700..1000).contains(&sound), "{sound}");
        let text = "var a 0..1; var b 0..1; timer s of b limit 1; timer t of a limit 2; \
            timer u of b limit 3; b: GX(b = (1)); a: GX(a = (u + s));";
        let timers = check_detail(&image(text)).expect("a sound image").timers;
        let ids: Vec<(usize, usize)> = timers.iter().map(|t| (t.id, t.watched)).collect();
        assert_eq!(ids, [(2, 1), (3, 0), (4, 1)]);
    });
}
