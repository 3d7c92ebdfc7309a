//! The readings of document 01 on texts, each example as a line of a table: expected
//! number and text, with `@` at the expected place (`@` at the end: the text length).

mod common;

use common::{answer, expect, image};
use rolvenko_model::features::with;
use rolvenko_model::Features;

const D: &str = "input i 0..1; var v 0..1; var w 0..1; ";
const C: &str = "v: GX(~(v = _v) -> [_v = 0 & i = 1] & v = (1) | [_v = 1] & v = (0)); ";
const N: &str = "v: GX(v = _v -> ~(";
const LONG: &str = "abcdefghijklmnopq";

/// Each line follows D, C and N(.
fn expect_in_list(number: u8, line: &str) {
    // What follows the refused token has no influence.
    for tail in ["", " ", " $", "; v: GX(", "]));"] {
        if line.ends_with('@') && !tail.is_empty() {
            continue;
        }
        expect(number, &format!("{D}{C}{N}{line}{tail}"));
    }
}

#[test]
fn texts_1_number_order_in_the_list() {
    expect_in_list(2, "@i");
    expect_in_list(2, "[@]");
    expect_in_list(2, "[_v = 0 & i = 1] @&");
    expect_in_list(3, "[_v = @2147483648");
    expect_in_list(4, "[@zz");
    expect_in_list(4, "[@_zz");
    expect_in_list(5, "[@w");
    expect_in_list(5, "[@v");
    expect_in_list(7, "[@i");
    expect_in_list(7, "[_v = @00");
    expect_in_list(7, "[_v = 0@]");
    expect_in_list(7, "[_v = 0 & i = 1]@)");
    expect_in_list(7, "[_v = 0 & i = 1] | [_v = 1] @|");
    expect_in_list(7, &format!("[@{LONG}"));
    expect_in_list(7, &format!("[@_{LONG}"));
    expect_in_list(7, "[@(");
    expect_in_list(1, "[@_mod");
    // "An early end is 2."
    expect_in_list(2, "@");
    expect_in_list(2, "[_v = 0@");
    expect_in_list(2, "[_v = 0 & i = 1]@");
    expect_in_list(2, "[_v = 0 & i = 1] | [_v = 1]@");
}

#[test]
fn texts_1_more_of_each_kind() {
    expect_in_list(1, "[_v = @$");
    expect_in_list(1, "@.");
    expect_in_list(2, "[_v = 0 & i = 1] | [_v = 1] @]");
    expect_in_list(2, "[_v @2147483648");
    expect_in_list(2, "[_v = 0 @zz");
    expect_in_list(2, "[_v = 0 & i = 1] | @(");
    expect_in_list(7, "[_v = 0 & i = 1 @&");
    expect_in_list(7, "[_v = 0 @+");
    expect_in_list(7, "[_v @<");
    expect_in_list(7, "[@~");
    expect_in_list(7, "[@[");
    expect_in_list(7, "[@-");
    expect_in_list(7, "[@_w");
    expect_in_list(7, "[@_i");
    expect_in_list(7, "[_v = 0 & i = 1] | [_v = @0");
    expect_in_list(7, "[_v = 0 & i = 1] | [_v = @01");
    // After the list the grammar alone counts.
    expect_in_list(2, "[_v = 0 & i = 1] | [_v = 1]) @]");
    expect_in_list(2, "[_v = 0 & i = 1] | [_v = 1])) @)");
    expect_in_list(6, "[_v = 0 & i = 1] | [_v = 1]));@");
}

/// `[@(` is 7 even as a 17th bracket.
#[test]
fn texts_1_seventeenth_bracket_in_the_list() {
    let open = "[".repeat(16);
    let close = "]".repeat(16);
    let change = format!("v: GX(~(v = _v) -> [{open}1 = 1{close}] & v = (1)); ");
    expect(2, &format!("{D}{change}v: GX(v = _v -> ~([{open}@]"));
    expect(7, &format!("{D}{change}v: GX(v = _v -> ~([{open}@["));
    expect(7, &format!("{D}{change}v: GX(v = _v -> ~([{open}@("));
    expect(7, &format!("{D}{change}v: GX(v = _v -> ~([{open}1 = @("));
    expect(2, &format!("{D}{change}v: GX(v = _v -> ~([{open}1@"));
}

#[test]
fn texts_2_after_a_change_formula() {
    for token in ["zz", LONG, "w", "i", "_v", "var", "input", ";", "1", "GX"] {
        expect(2, &format!("{D}{C}@{token}: GX(w = (0));"));
    }
    let ruled = "w: GX(w = (0)); ";
    expect(2, &format!("{D}{ruled}{C}@w: GX(w = (0));"));
    expect(2, &format!("{D}{C}@"));
    expect(2, &format!("{D}{C}v: GX(v = @(1));"));
    expect(2, &format!("{D}{C}v: GX(@~"));
    expect(1, &format!("{D}{C}@_mod"));
    expect(2, &format!("{D}v: GX(v = @_v -> ~([_v = 0]));"));
    for name in ["w", "zz", LONG, "i", "_v", "_w", "1", "("] {
        expect(2, &format!("{D}v: GX(@{name}"));
        expect(2, &format!("{D}v: GX(~(@{name} = _v)"));
    }
    for name in ["v", "w", "_w", "_zz", "1"] {
        expect(2, &format!("{D}v: GX(~(v = @{name})"));
        expect(2, &format!("{D}{C}v: GX(v = @{name} ->"));
    }
    for name in ["_v", "w", "zz", LONG, "1"] {
        expect(2, &format!("{D}v: GX(~(v = _v) -> [i = 1] & @{name} = (1)"));
    }
}

#[test]
fn texts_3_over_long_names() {
    expect(8, &format!("input @{LONG} 0..1;"));
    expect(8, &format!("var @{LONG} 0..1;"));
    expect(8, &format!("{D}@{LONG}: GX("));
    expect(8, &format!("{D}v: GX(v = (@{LONG}"));
    expect(8, &format!("{D}v: GX(v = (@_{LONG}"));
    expect(8, &format!("{D}v: GX(~(v = _v) -> [@{LONG}"));
    expect(8, &format!("{D}v: GX(~(v = _v) -> [1 < @_{LONG}"));
    expect(2, &format!("{D}v: GX(@{LONG}"));
    expect(2, &format!("{D}v: GX(~(v = @_{LONG}"));
    // Where no name may stand it is 2.
    expect(2, &format!("{D}v @{LONG}"));
    expect(2, &format!("{D}v: @{LONG}"));
    expect(2, &format!("input a @{LONG} 0..1;"));
    expect(2, &format!("{D}v: GX(v = (1 @{LONG}"));
    // A name of many more bytes is a name too.
    expect(8, &format!("var @{} 0..1;", "a".repeat(5000)));
    // Over-long in a declaration, though its first 16 bytes are declared.
    expect(8, &format!("input {} 0..1; var @{LONG} 0..1;", &LONG[..16]));
}

fn sixty_four(extra: &str) -> String {
    let names: String = (0..64).map(|id| format!("var n{id} 0..1; ")).collect();
    names + extra
}

#[test]
fn texts_4_sixty_fifth_name() {
    expect(8, &sixty_four("var @more 0..1;"));
    expect(4, &sixty_four("var @n7 0..1;"));
    expect(8, &sixty_four(&format!("var @{LONG} 0..1;")));
    expect(2, &sixty_four("var @mod 0..1;"));
    expect(2, &sixty_four("@input y 0..1;"));
    expect(6, &sixty_four("@"));
}

#[test]
fn texts_5_missing_rules() {
    expect(6, "var v 0..1;@");
    expect(6, "var v 0..1; \t\r\n @");
    expect(2, "var v 0..1; v@");
    expect(2, "var v 0..1; v: GX(v = (1))@");
    expect(2, "var v 0..1; v: GX(v = (1)) \n@");
    expect(0, "var v 0..1; v: GX(v = (1));");
    let rules = "w: GX(w = (1)); v: GX(v = (1));";
    expect(0, &format!("{D}{rules}"));
    expect(6, &format!("{D}v: GX(v = (1)); @"));
    expect(6, &format!("{D}@i: GX(i = (1));"));
    expect(6, &format!("{D}{rules} @v: GX(v = (1));"));
    expect(6, &format!("{D}{rules} @w"));
    expect(4, &format!("{D}{rules} @zz"));
    expect(6, &format!("{D}{rules} @i"));
}

#[test]
fn texts_6_digits() {
    expect(0, "input a 000..0001 init 00000000000000000000000001;");
    expect(0, "input a -0..-0 init -0;");
    expect(0, "input a -2147483648..0;");
    expect(3, "input a -@2147483649..0;");
    expect(3, "input a 0..@2147483648;");
    expect(3, "input a 0..1 init -@1;");
    expect(3, "input a 5..@4;");
    expect(3, "input a -4..-@5;");
    expect(3, "input a 5..6@;");
    expect(3, "input a 5..6 init @7;");
    expect(2, "input a - @- 1..2;");
    expect(2, "input a @+1..2;");
    expect(2, "input a 0..1 @0;");
    expect(2, "input a 0..1 init @;");
    expect(3, "var v 0..1; v: GX(v = (-@2147483648));");
    expect(3, "var v 0..1; v: GX(v = (@2147483648));");
    expect(0, "var v 0..1; v: GX(v = (-2147483647));");
    expect(0, "var v 0..1; v: GX(v = (-0));");
    let zeros = "0".repeat(20_000);
    expect(0, &format!("var v 0..1; v: GX(v = ({zeros}1));"));
    let change = "v: GX(~(v = _v) -> [_v = 0] & v = (1)); v: GX(v = _v -> ~([_v = ";
    expect(7, &format!("var v 0..1; {change}@00]));"));
    expect(0, &format!("var v 0..1; {change}0]));"));
}

#[test]
fn texts_7_longest_match() {
    expect(0, "var modx 0..1; modx: GX(modx = (_modx));");
    expect(1, "var v 0..1; v: GX(v = (@_mod));");
    expect(1, "var v 0..1; v: GX(v = (@_ v));");
    expect(1, "var v 0..1; v: GX(v = (@_1));");
    expect(1, "var v 0..1; v: GX(v = (@__v));");
    expect(2, "input a 0..1; var v 0..1; v: GX(v = (a@_a));");
    expect(2, "var v 0..1; v: GX(v = (1@v));");
    expect(1, "input a 0..@.1;");
    expect(1, "input a 0@. .1;");
    expect(2, "input a 1@->2;");
    expect(2, "var v 0..1; v: GX(~(v = _v) -> [1 <@-> 2]");
    expect(2, "var v0@..1;");
    expect(0, "var v0 0..1;v0:GX(v0=(1));");
    expect(0, "var v 0..1;v:GX(v=(7mod 2));");
    expect(2, "var v 0..1;v:GX(v=(7 @mod2));");
    expect(0, "input a-1..-1init-1;");
    for byte in [
        0u8, 11, 12, 127, 128, 160, 255, b'$', b'#', b'!', b'"', b'\\', b'{', b',',
    ] {
        let text = [b"var v 0..1; ", &[byte][..]].concat();
        assert_eq!(answer(&text), (1, 12), "byte {byte}");
        assert_eq!(answer(&[byte]), (1, 0), "byte {byte}");
    }
    // Words have one spelling; without A.2 others are names.
    with(Features::NONE, || {
        expect(4, "@Input a 0..1;");
        expect(4, "@VAR a 0..1;");
    });
    expect(2, "var v 0..1; v: @gx(");
    expect(2, "var @GX 0..1;");
    expect(2, "var @init 0..1;");
}

#[test]
fn texts_8_brackets_not_counted() {
    let sixteen = format!("{}1{}", "(".repeat(16), ")".repeat(16));
    let seventeen = format!("{}@(1", "(".repeat(16));
    let squares = format!("{}1 = 1{}", "[".repeat(16), "]".repeat(16));
    expect(0, &format!("var v 0..1; v: GX(v = ({sixteen}));"));
    expect(8, &format!("var v 0..1; v: GX(v = ({seventeen}"));
    expect(
        0,
        &format!("var v 0..99; v: GX(v = ({sixteen} + {sixteen}));"),
    );
    let change = |condition: &str, value: &str| {
        format!("var v 0..1; v: GX(~(v = _v) -> [{condition}] & v = ({value}")
    };
    let whole = change(&squares, &sixteen);
    let list = format!(")); v: GX(v = _v -> ~([{squares}]));");
    expect(0, &(whole.clone() + &list));
    expect(8, &change(&squares, &seventeen));
    expect(8, &change(&format!("{}@[", "[".repeat(16)), ""));
    expect(8, &change(&format!("{}1 = @(", "[".repeat(16)), ""));
    expect(
        8,
        &change(&format!("{}1 = {}@(", "~[".repeat(10), "(".repeat(6)), ""),
    );
    expect(8, &change(&format!("{}~@[", "~[".repeat(16)), ""));
    expect(2, &change("~@~[1 = 1]", ""));
    expect(2, &change("~@1 = 1", ""));
    expect(2, &change("~@(1) = 1", ""));
}

#[test]
fn texts_9_thirty_third_case() {
    let case = |k: usize| format!("[_v = {k}] & v = (1)");
    let list = |count: usize| {
        let all: Vec<String> = (0..count).map(|k| format!("[_v = {k}]")).collect();
        all.join(" | ")
    };
    let all: Vec<String> = (0..32).map(case).collect();
    let change = format!("var v 0..1; v: GX(~(v = _v) -> {}", all.join(" | "));
    expect(8, &format!("{change} | @[_v = 1] & v = (1));"));
    expect(2, &format!("{change} | @(_v = 1] & v = (1));"));
    let second = format!("{change}); v: GX(v = _v -> ~(");
    expect(0, &format!("{second}{}));", list(32)));
    expect(7, &format!("{second}{} @| [_v = 32]));", list(32)));
    expect(7, &format!("{second}{}@));", list(31)));
}

#[test]
fn texts_10_white_space() {
    for text in ["", " ", "\n", " \t\r\n\r\n  "] {
        assert_eq!(image(text), [0, 0]);
    }
}

/// A text in which no token can be replaced by `GX`, `->` or `:` but by itself: each
/// of them is 2 at the place of every other token, a bad byte is 1.
fn wrong_tokens(text: &str) {
    let tokens = rolvenko_model::token::tokens(text.as_bytes());
    assert!(tokens.len() > 20);
    for token in tokens {
        let head = &text[..token.place];
        for wrong in ["GX", "->", ":"] {
            if token.spelling != wrong.as_bytes() {
                expect(2, &format!("{head} @{wrong}"));
            }
        }
        expect(1, &format!("{head} @$"));
        expect(1, &format!("{head} @_ v"));
    }
}

#[test]
fn wrong_token_at_every_place() {
    wrong_tokens("input a 0..1 init 0; var v -1..1 init -1; v: GX(v = (a));");
    wrong_tokens(&format!("{D}w: GX(w = (-1 + (2 * _w) - i));"));
    wrong_tokens(&format!("{D}{C}{N}[_v = 0 & i = 1] | [_v = 1]));"));
}

#[test]
fn grammar() {
    expect(2, "@;");
    expect(4, "@v: GX(v = (1));");
    expect(4, "input a 0..1; var @a 0..1;");
    expect(4, "var v 0..1; v: GX(v = (@zz));");
    expect(4, "var v 0..1; v: GX(v = (@_zz));");
    expect(5, "var v 0..1; v: GX(v = (@v));");
    expect(5, &format!("{D}v: GX(v = (@w)); w: GX(w = (1));"));
    expect(
        0,
        &format!("{D}v: GX(v = (1)); w: GX(w = (v + _w + _v + i));"),
    );
    expect(2, "var v 0..1; v: GX(~(v = _v) -> [1 @& 1 = 1]");
    expect(2, "var v 0..1; v: GX(~(v = _v) -> [1 = 1 @= 1]");
    expect(2, "var v 0..1; v: GX(~(v = _v) -> [(1 @= 1)]");
    expect(2, "var v 0..1; v: GX(~(v = _v) -> [[1@]]");
    expect(2, "var v 0..1; v: GX(v = (1 + @+ 1));");
    expect(2, "var v 0..1; v: GX(v = (- @- 1));");
    expect(2, "var v 0..1; v: GX(v = (@));");
    expect(2, "var v 0..1; v: GX(v = (1 @& 1));");
    expect(2, "var v 0..1; v: GX(v = (@[1]));");
    expect(2, "var v 0..1; @input a 0..1;");
    expect(2, &format!("{D}v: GX(v = (1)); @var y 0..1;"));
}
