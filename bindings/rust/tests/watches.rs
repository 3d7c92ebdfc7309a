//! Document 02, A.13: worked reports and refusals of watches, and reports of wrong lengths.

use rolvenko::{translate, watch, write_report, Refusal, IMAGE_ROOM, WATCHES};

const P: &str = "input i 0..1; var v 0..9; v: GX(v = (_v + i)); ";
const T: [i32; 8] = [0, 0, 1, 1, 1, 2, 0, 2];

/// P with these watches.
fn watched(watches: &[&str]) -> String {
    watches.iter().fold(P.to_owned(), |text, watch| format!("{text}watch: G({watch}); "))
}

/// The report on P with these watches, -1 for never; the numbers behind it stay.
fn report(watches: &[&str], trace: &[i32]) -> Vec<i64> {
    let mut report = [77; WATCHES];
    let count = write_report(watched(watches).as_bytes(), trace, &mut report).expect("a report");
    assert!(count == watches.len() && report[count..].iter().all(|&number| number == 77));
    report[..count].to_vec()
}

/// `@` marks the place of the refusal and is not part of the text.
fn refused(number: u8, marked: &str) {
    let place = marked.find('@').expect("a mark");
    let text = marked.replacen('@', "", 1);
    assert_eq!(watch(text.as_bytes(), &T), Err(Refusal { number, place }), "{marked}");
    assert_eq!(translate(text.as_bytes(), &mut [0; IMAGE_ROOM]), Err(Refusal { number, place }), "{marked}");
}

#[test]
fn reports() {
    assert_eq!(report(&[], &T), []);
    for (watch, place) in [
        ("[v >= _v]", -1),
        ("[v < 2]", 2),
        ("[v = 0] -> X([v = 1])", -1),
        ("[9 / i > 0]", 0),
        ("[9 / v > 0] -> X([1 = 1])", 1),
        ("[1 = 2] -> X([9 / (2 - v) > 0])", 2),
        ("[v = 2147483647 + 1]", 0),
        ("[1 mod 0 = 0]", -1),
        ("[v = 0 | 1 / 0 = 1]", 0),
    ] {
        assert_eq!(report(&[watch], &T), [place], "{watch}");
    }
    assert_eq!(report(&["[i = 1] -> X([v > _v])", "[v < 2]", "[v = _v + i]"], &T), [3, 2, -1]);
    assert_eq!(report(&["[1 = 1] -> X([9 / v > 0])"], &[0, 0]), [-1]);
    assert_eq!(report(&["[v = 12]"], &[5, 12, -7, 12]), [-1]);
    assert_eq!(report(&["[_v = v]"], &[0, 3, 0, 4]), [1]);
    assert_eq!(report(&["[v < 2]"; 16], &T), [2; 16]);
    assert_eq!(watch(watched(&["[v < 2]", "[v >= _v]"]).as_bytes(), &T), Ok(vec![Some(2), None]));
}

#[test]
fn lengths() {
    let wrong = Err(Refusal { number: 12, place: 0 });
    let text = watched(&["[v < 2]"]);
    for trace in [&T[..0], &T[..3]] {
        assert_eq!(watch(text.as_bytes(), trace), wrong);
    }
    for length in [0, 1, 15, 17] {
        let mut report = vec![7; length];
        assert_eq!(write_report(text.as_bytes(), &T, &mut report), Err(Refusal { number: 12, place: 0 }));
        assert_eq!(report, vec![7; length]);
    }
    // the text's refusals come first
    assert_eq!(write_report(b"$", &[], &mut []), Err(Refusal { number: 1, place: 0 }));
    // without names nothing lent is the start alone
    assert_eq!(watch(b"watch: G([1 = 2]);", &[]), Ok(vec![Some(0)]));
    assert_eq!(watch(b"watch: G([1 = 1] -> X([1 = 2]));", &[]), Ok(vec![None]));
    assert_eq!(watch(b"watch: G([1 = 2]);", &[5]), wrong);
}

#[test]
fn refused_texts() {
    let declared = "input i 0..1; var v 0..9; ";
    refused(6, &format!("{declared}watch: G([v < 2]);@"));
    refused(4, &format!("{declared}watch: G([@zz"));
    refused(2, &format!("{declared}watch: G([v < 2]); @v: GX"));
    for rest in [
        "watch: G([v < 2@)",
        "watch: G(@v",
        "watch: @g(",
        "@Watch",
        "watch: G([v < 2] -> @[",
        "watch: G([v < 2] -> X(@v",
        "watch: @GX(",
        "watch @G",
    ] {
        refused(2, &format!("{P}{rest}"));
    }
    refused(2, "input @x 0..1;");
    refused(2, "input @G 0..1;");
    refused(1, "var v 0..1; v: GX(v = (@_x));");
}

/// A 17th watch is 30 at its word; 16 brackets in each condition.
#[test]
fn limits() {
    for separator in [" ", ""] {
        let watches = vec!["watch: G([v < 2]);"; 16].join(separator);
        let text = format!("{P}{watches}{separator}");
        assert_eq!(watch(text.as_bytes(), &T), Ok(vec![Some(2); 16]));
        assert_eq!(text.len(), if separator.is_empty() { 335 } else { 351 });
        refused(30, &format!("{text}@watch: G([v < 2]);"));
    }
    let nested = |depth| format!("{}v < 2{}", "[".repeat(depth), "]".repeat(depth));
    assert_eq!(report(&[&format!("[{0}] -> X([{0}])", nested(16))], &T), [2]);
    let over = format!("{}@{}", "[".repeat(16), nested(1));
    refused(8, &format!("{P}watch: G([{over}"));
    refused(8, &format!("{P}watch: G([{}] -> X([{over}", nested(16)));
}

/// "Image, ST and printed trace hold no watches".
#[test]
fn images_hold_no_watches() {
    let wanted = [0x01, 0x01, 0x00, 0x02, 0x00, 0x00, 0x12, 0x00, 0x03, 0x01, 0x02, 0x00, 0x04, 0x15, 0x01];
    for watches in [&[][..], &["[v < 2]", "[v < 2] -> X([v < 2])"]] {
        let mut image = [0; 15];
        assert_eq!(translate(watched(watches).as_bytes(), &mut image), Ok(15));
        assert_eq!(image, wanted);
    }
}
