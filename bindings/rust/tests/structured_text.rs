//! Document 02, A.4: worked cases of Structured Text, its refusals, and buffers at their edges.

use rolvenko::{structured_text, Refusal, ST_ROOM, TEXT_LIMIT};

const TOO_SHORT: u8 = 10;
const L2: &str = "var v 0..1; v: GX(~(v = _v) -> [_v = 0] & v = (1)); v: GX(v = _v -> ~([_v = 0]));";

/// The Structured Text of a text with so much room, or number and place; what is not written stays.
fn lent(text: &[u8], room: usize) -> Result<String, (u8, usize)> {
    let mut out = vec![0xA5; room];
    let answer = structured_text(text, &mut out);
    assert!(out[answer.unwrap_or(0)..].iter().all(|&byte| byte == 0xA5));
    match answer {
        Ok(length) => Ok(String::from_utf8(out[..length].to_vec()).expect("ASCII")),
        Err(Refusal { number, place }) => Err((number, place)),
    }
}

/// What stands behind the last END_VAR, and the length of the whole.
fn body(text: &str) -> (String, usize) {
    let whole = lent(text.as_bytes(), ST_ROOM).expect("a text that has a Structured Text");
    assert_eq!(lent(text.as_bytes(), whole.len()), Ok(whole.clone()));
    assert_eq!(lent(text.as_bytes(), whole.len() - 1), Err((TOO_SHORT, text.len())));
    (whole.rsplit_once("END_VAR\n").expect("a section").1.to_owned(), whole.len())
}

#[test]
fn the_latch_of_the_document() {
    let wanted = "VAR\n  v : DINT := 0;\n  _v : DINT := 0;\nEND_VAR\nIF (_v = 0) THEN\n  v := 1;\nEND_IF;\n_v := v;\n";
    assert_eq!(lent(L2.as_bytes(), 91), Ok(wanted.to_owned()));
    assert_eq!(lent(L2.as_bytes(), 100), Ok(wanted.to_owned()));
    assert_eq!(lent(L2.as_bytes(), 90), Err((TOO_SHORT, 81)));
    assert_eq!(lent(L2.as_bytes(), 0), Err((TOO_SHORT, 81)));
}

#[test]
fn empty_sections_are_left_out() {
    assert_eq!(lent(b"", 0), Ok(String::new()));
    assert_eq!(lent(b" \n", 0), Ok(String::new()));
    let inputs = "VAR_INPUT\n  a : DINT := 0;\nEND_VAR\nVAR\n  _a : DINT := 0;\nEND_VAR\n_a := a;\n";
    assert_eq!(lent(b"input a 0..0;", 74), Ok(inputs.to_owned()));
    let least = lent(b"input m -2147483648..0 init -2147483648;", 94).expect("94 bytes");
    assert_eq!((least.len(), least.matches(" : DINT := -2147483648;\n").count()), (94, 2));
}

#[test]
fn previous_values_of_inputs_stand_before_the_variables() {
    let text = "input b 0..9 init 007; input a -9..9 init -3; var z 0..9; var y -9..9 init 9; y: GX(y = (a)); z: GX(z = (_y));";
    let wanted = "VAR_INPUT\n  b : DINT := 7;\n  a : DINT := -3;\nEND_VAR\nVAR\n  _b : DINT := 7;\n  _a : DINT := -3;\n  z : DINT := 0;\n  \
        _z : DINT := 0;\n  y : DINT := 9;\n  _y : DINT := 9;\nEND_VAR\ny := a;\nz := _y;\n_b := b;\n_a := a;\n_z := z;\n_y := y;\n";
    assert_eq!(lent(text.as_bytes(), ST_ROOM), Ok(wanted.to_owned()));
}

#[test]
fn each_operation_is_in_brackets_and_nothing_else() {
    for (text, wanted, length) in [
        ("var v -99..99;v:GX(v=(1-2-3*4*5));", "v := ((1 - 2) - ((3 * 4) * 5));", 88),
        ("var v 0..9;v:GX(v=(-(-5)*-(_v+007)mod 2));", "v := (((-(-5)) * (-(_v + 7))) MOD 2);", 94),
        ("var v 0..1;v:GX(v=(((0))));", "v := 0;", 64),
    ] {
        assert_eq!(body(text), (format!("{wanted}\n_v := v;\n"), length), "{text}");
    }
}

#[test]
fn conditions_and_blocks() {
    let list = "a=1|a=0&~[_v<>0|[a<=1]]|1>=a";
    let text = format!("input a 0..1;var v 0..1;v:GX(~(v=_v)->[{list}]&v=(1));v:GX(v=_v->~([{list}]));");
    let wanted = "IF (((a = 1) OR ((a = 0) AND (NOT ((_v <> 0) OR (a <= 1))))) OR (1 >= a)) THEN\n  v := 1;\nEND_IF;\n_a := a;\n_v := v;\n";
    assert_eq!(body(&text), (wanted.to_owned(), 215));
    // a pair is one block over both lists, rising first
    let pair = "var v 0..9;v+:GX(v>_v->[_v<5]&v=(_v+1)|[_v=5]&v=(9));v-:GX(v<_v->[_v=9]&v=(0));";
    let wanted =
        "IF (_v < 5) THEN\n  v := (_v + 1);\nELSIF (_v = 5) THEN\n  v := 9;\nELSIF (_v = 9) THEN\n  v := 0;\nEND_IF;\n_v := v;\n";
    assert_eq!(body(pair), (wanted.to_owned(), 158));
}

#[test]
fn names_print_as_declared() {
    let (wanted, length) = body("input Run 0..1;var v 0..1;V:GX(v=(rUN));");
    assert_eq!((wanted.as_str(), length), ("v := Run;\n_Run := Run;\n_v := v;\n", 136));
}

/// 21 comes after the text's own faults and before 10, at the first such name in its declaration.
#[test]
fn words_of_structured_text_are_no_names() {
    let three = b"input a 0..1; input elsif 0..1; input If 0..1;";
    assert_eq!(lent(three, 0), Err((21, 20)));
    assert_eq!(lent(three, ST_ROOM), Err((21, 20)));
    assert_eq!(lent(b"input IF 0..1; !", ST_ROOM), Err((1, 15)));
    for text in ["input VAR 0..1;", "input Mod 0..1;"] {
        assert_eq!(lent(text.as_bytes(), ST_ROOM), Err((2, 6)));
    }
    for word in ["IF", "THEN", "ELSIF", "DINT", "AND", "OR", "NOT", "if", "tHEN", "Elsif", "dinT", "and", "oR", "not"] {
        let text = format!("input i 0..1; var {word} 0..1; {word}: GX({word} = (i));");
        assert_eq!(lent(text.as_bytes(), ST_ROOM), Err((21, 18)), "{word}");
        assert!(lent(text.replace(word, &format!("{word}1")).as_bytes(), ST_ROOM).is_ok(), "{word}");
    }
    let others = b"input ELSE 0..1; input DINT1 0..1; input END 0..1;";
    assert_eq!(lent(others, 198).map(|st| st.len()), Ok(198));
    assert_eq!(lent(others, 0), Err((TOO_SHORT, 50)));
    assert_eq!(lent(&vec![b' '; TEXT_LIMIT + 1], 0), Err((9, 0)));
    assert_eq!(lent(&vec![b' '; TEXT_LIMIT], 0), Ok(String::new()));
}

/// The text that prints the most: a pair whose condition is `1=1&1=1&..`, and 63 inputs with names of 16 bytes. Seven bytes for two, and the
/// room is enough.
#[test]
fn the_longest_stays_below_the_room() {
    let mut text: String = (0..63).map(|n| format!("input name{n:02}of16bytes 0..1;")).collect();
    text += "var v 0..1;v+:GX(v>_v->[1=1";
    let tail = "]&v=(1));v-:GX(v<_v->[1=1]&v=(0));";
    while text.len() + "&1=1".len() + tail.len() <= TEXT_LIMIT {
        text += "&1=1";
    }
    text += tail;
    let written = lent(text.as_bytes(), ST_ROOM).expect("the room is enough");
    assert!(2 * written.len() <= 7 * text.len() + 2620 && written.len() > 114_000, "{} {}", text.len(), written.len());
    assert_eq!(lent(text.as_bytes(), written.len()).as_ref(), Ok(&written));
    assert_eq!(lent(text.as_bytes(), written.len() - 1), Err((TOO_SHORT, text.len())));
}
