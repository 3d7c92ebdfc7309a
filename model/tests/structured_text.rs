//! Request A.4: the writer of ST, byte for byte.

mod common;

use common::landed_and_all;
use rolvenko_model::features::with;
use rolvenko_model::generate::{edited_st_source, st_source, Names, Rng};
use rolvenko_model::token::tokens;
use rolvenko_model::{
    read_text, structured_text, write_structured_text, Features, Program, Refusal,
};

const L2: &str =
    "var v 0..1; v: GX(~(v = _v) -> [_v = 0] & v = (1)); v: GX(v = _v -> ~([_v = 0]));";

/// The ST of a text, or number and place; what is not written stays.
fn lent(text: &str, room: usize) -> Result<String, (u8, usize)> {
    let mut out = vec![0xA5; room];
    match structured_text(text.as_bytes(), &mut out) {
        Ok(length) => {
            assert!(out[length..].iter().all(|&byte| byte == 0xA5));
            out.truncate(length);
            Ok(String::from_utf8(out).expect("ASCII"))
        }
        Err(Refusal { number, place }) => {
            assert!(out.iter().all(|&byte| byte == 0xA5));
            Err((number, place))
        }
    }
}

fn st(text: &str) -> String {
    lent(text, 9999).expect("a text that has an ST")
}

/// What stands after the last END_VAR, and the length of the whole.
fn body(text: &str) -> (String, usize) {
    let whole = st(text);
    let (_, body) = whole.rsplit_once("END_VAR\n").expect("sections");
    (body.to_owned(), whole.len())
}

#[test]
fn latch() {
    let wanted = "VAR\n  v : DINT := 0;\n  _v : DINT := 0;\nEND_VAR\n\
        IF (_v = 0) THEN\n  v := 1;\nEND_IF;\n_v := v;\n";
    assert_eq!(st(L2), wanted);
    assert_eq!(wanted.len(), 91);
    assert_eq!(lent(L2, 91), Ok(wanted.to_owned()));
    assert_eq!(lent(L2, 90), Err((10, 81)));
    assert_eq!(lent(L2, 0), Err((10, 81)));
}

/// "each left out if empty"; without names nothing is printed.
#[test]
fn sections() {
    assert_eq!(lent("", 0), Ok(String::new()));
    assert_eq!(lent(" \n", 0), Ok(String::new()));
    let inputs = "VAR_INPUT\n  a : DINT := 0;\nEND_VAR\nVAR\n  _a : DINT := 0;\nEND_VAR\n\
        _a := a;\n";
    assert_eq!(st("input a 0..0;"), inputs);
    assert_eq!(inputs.len(), 74);
    let both = "VAR_INPUT\n  b : DINT := 7;\n  a : DINT := -3;\nEND_VAR\nVAR\n  \
        _b : DINT := 7;\n  _a : DINT := -3;\n  z : DINT := 0;\n  _z : DINT := 0;\n  \
        y : DINT := 9;\n  _y : DINT := 9;\nEND_VAR\ny := a;\nz := _y;\n\
        _b := b;\n_a := a;\n_z := z;\n_y := y;\n";
    let text = "input b 0..9 init 007; input a -9..9 init -3; var z 0..9; var y -9..9 init 9; \
        y: GX(y = (a)); z: GX(z = (_y));";
    assert_eq!(st(text), both);
    let least = st("input m -2147483648..0 init -2147483648;");
    assert_eq!(least.matches(" : DINT := -2147483648;\n").count(), 2);
    assert_eq!(least.len(), 94);
}

#[test]
fn expressions() {
    let (sums, length) = body("var v -99..99;v:GX(v=(1-2-3*4*5));");
    assert_eq!(sums, "v := ((1 - 2) - ((3 * 4) * 5));\n_v := v;\n");
    assert_eq!(length, 88);
    let (minus, length) = body("var v 0..9;v:GX(v=(-(-5)*-(_v+007)mod 2));");
    assert_eq!(minus, "v := (((-(-5)) * (-(_v + 7))) MOD 2);\n_v := v;\n");
    assert_eq!(length, 94);
    let (plain, _) = body("var v 0..9;v:GX(v=(((00))));");
    assert_eq!(plain, "v := 0;\n_v := v;\n");
    let (mixed, _) = body("var v 0..9;v:GX(v=(1+2*3/4 mod 5-(6-7)));");
    assert_eq!(
        mixed,
        "v := ((1 + (((2 * 3) / 4) MOD 5)) - (6 - 7));\n_v := v;\n"
    );
}

#[test]
fn conditions() {
    let list = "a=1|a=0&~[_v<>0|[a<=1]]|1>=a";
    let text =
        format!("input a 0..1;var v 0..1;v:GX(~(v=_v)->[{list}]&v=(1));v:GX(v=_v->~([{list}]));");
    let wanted =
        "IF (((a = 1) OR ((a = 0) AND (NOT ((_v <> 0) OR (a <= 1))))) OR (1 >= a)) THEN\n  \
        v := 1;\nEND_IF;\n_a := a;\n_v := v;\n";
    assert_eq!(body(&text), (wanted.to_owned(), 215));
    assert_eq!(text.len(), 122);
    let three = "var v 0..9;v:GX(~(v=_v)->[_v<5&1=1&2>1]&v=(_v+1)|[_v=5]&v=(9)|[[[_v=9]]]&v=(0));\
        v:GX(v=_v->~([_v<5&1=1&2>1]|[_v=5]|[[[_v=9]]]));";
    let wanted = "IF (((_v < 5) AND (1 = 1)) AND (2 > 1)) THEN\n  v := (_v + 1);\n\
        ELSIF (_v = 5) THEN\n  v := 9;\nELSIF (_v = 9) THEN\n  v := 0;\nEND_IF;\n_v := v;\n";
    assert_eq!(body(three).0, wanted);
}

/// "one IF/ELSIF block .. a rule", also of a pair, the rising list first.
#[test]
fn pairs() {
    let pair = "var v 0..9;v+:GX(v>_v->[_v<5]&v=(_v+1)|[_v=5]&v=(9));v-:GX(v<_v->[_v=9]&v=(0));";
    let wanted = "IF (_v < 5) THEN\n  v := (_v + 1);\nELSIF (_v = 5) THEN\n  v := 9;\n\
        ELSIF (_v = 9) THEN\n  v := 0;\nEND_IF;\n_v := v;\n";
    let found = with(Features::ALL, || body(pair));
    assert_eq!(found, (wanted.to_owned(), 158));
}

/// "Names print as declared", however they are used.
#[test]
fn declared_spelling() {
    let found = with(Features::ALL, || {
        body("input Run 0..1;var v 0..1;V:GX(v=(rUN));")
    });
    let wanted = "v := Run;\n_Run := Run;\n_v := v;\n".to_owned();
    assert_eq!(found, (wanted, 136));
}

/// "Image, ST and printed trace hold no watches" (A.13).
#[test]
fn watches_print_nothing() {
    let rules = "var v 0..1;v:GX(v=(0));";
    let watched = format!("{rules}watch:G([v=0]);");
    with(Features::ALL, || {
        assert_eq!(body(rules), ("v := 0;\n_v := v;\n".to_owned(), 64));
        assert_eq!(st(rules), st(&watched));
    });
}

/// "The ST writer answers a timer with 21, at its word" (A.7); the first in the text.
#[test]
fn timers() {
    with(Features::ALL, || {
        let rest = "0..1; timer t of w limit 5; w:GX(w=(1));";
        let text = format!("var w {rest}");
        assert_eq!(lent(&text, 0), Err((21, 12)));
        assert_eq!(lent(&text.replace(" t ", " IF "), 9999), Err((21, 12)));
        assert_eq!(lent(&format!("input IF 0..1; {text}"), 9999), Err((21, 6)));
    });
}

/// Words of both languages are no names of a text (A.2).
#[test]
fn grammar_words() {
    with(Features::ALL, || {
        for word in ["VAR", "Mod", "mOD", "Var"] {
            let text = format!("input {word} 0..1;");
            assert_eq!(lent(&text, 9999), Err((2, 6)), "{word}");
        }
    });
}

/// "after all faults of the text; a short buffer is 10, after 21"; the first in the text.
#[test]
fn reserved_names() {
    let three = "input a 0..1; input elsif 0..1; input If 0..1;";
    assert_eq!(lent(three, 0), Err((21, 20)));
    assert_eq!(lent(three, 9999), Err((21, 20)));
    assert_eq!(lent("input IF 0..1; !", 9999), Err((1, 15)));
    let others = "input ELSE 0..1; input DINT1 0..1; input END 0..1;";
    assert_eq!(st(others).len(), 198);
    assert_eq!(lent(others, 0), Err((10, 50)));
    for word in ["IF", "THEN", "ELSIF", "DINT", "AND", "OR", "NOT"] {
        for name in [word.to_owned(), word.to_lowercase(), changed_case(word)] {
            let text = format!("input i 0..1; var {name} 0..1; {name}: GX({name} = (0));");
            assert_eq!(lent(&text, 9999), Err((21, 18)), "{name}");
            let longer = text.replace(&name, &format!("{name}s"));
            assert!(lent(&longer, 9999).is_ok(), "{longer}");
        }
    }
    assert_eq!(lent(&" ".repeat(32_769), 0), Err((9, 0)));
}

/// The first letter small, the others as they are.
fn changed_case(word: &str) -> String {
    word[..1].to_lowercase() + &word[1..]
}

/// The first declared name that is reserved, or else the word `timer` if there is one:
/// timers stand after all other names.
fn first_reserved<'t>(program: &Program<'t>) -> Option<&'t [u8]> {
    let reserved = |name: &[u8]| {
        let upper = name.to_ascii_uppercase();
        let mut words = "IF THEN ELSIF DINT AND OR NOT".split(' ');
        words.any(|word| word.as_bytes() == upper)
    };
    let others = program.names.len() - program.timers.len();
    let mut names = program.names[..others].iter().map(|name| name.spelling);
    let timer = program.timers.first().map(|_| &b"timer"[..]);
    names.find(|name| reserved(name)).or(timer)
}

/// The answer is that of translation but for 21 and the room; every number is met.
#[test]
fn answers_by_seed() {
    landed_and_all(answers_by_seed_in_force);
}

fn answers_by_seed_in_force() {
    let mut met = [0; 31];
    for seed in 0..4000 {
        let mut rng = Rng::new(98_000_000 + seed);
        let text = match seed % 2 {
            0 => edited_st_source(&mut rng),
            _ => st_source(&mut rng, Names::Any),
        };
        let program = read_text(&text);
        let written = program.as_ref().map(write_structured_text);
        let length = written.as_ref().map_or(9, String::len);
        // The design's bound, from which the room of 115,998 bytes comes.
        assert!(2 * length <= 7 * text.len() + 2620);
        let rooms = [0, length.saturating_sub(1), length, length + 9];
        let room = *rng.choose(&rooms);
        let mut out = vec![0xA5; room];
        let answer = structured_text(&text, &mut out);
        let stays = answer.unwrap_or(0);
        assert!(out[stays..].iter().all(|&byte| byte == 0xA5));
        let reserved = program.as_ref().ok().and_then(first_reserved);
        match (answer, reserved) {
            (Ok(count), None) => assert_eq!(Ok(out[..count].to_vec()), written.map(Vec::from)),
            (Err(Refusal { number: 21, place }), Some(name)) => {
                // The name of the declaration is the first token of its spelling.
                let mut all = tokens(&text).into_iter();
                assert_eq!(
                    all.find(|t| t.spelling == name).map(|t| t.place),
                    Some(place)
                );
            }
            (Err(Refusal { number: 10, place }), None) => {
                assert_eq!((place, room < length), (text.len(), true));
            }
            (Err(refusal), None) => assert_eq!(program.err(), Some(refusal)),
            other => panic!("{other:?}"),
        }
        met[usize::from(answer.map_or_else(|r| r.number, |_| 0))] += 1;
    }
    for wanted in [0, 1, 2, 3, 4, 5, 6, 7, 8, 10, 21] {
        assert!(met[wanted] > 0, "{wanted}: {met:?}");
    }
}
