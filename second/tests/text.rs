//! The edges of trace text: what is refused, as which kind, at which column.

mod common;

use common::{report, trace};
use second::{play, play_showing_machine};

const TOO_LONG: &[u8] = b"step=0 answer=refused-14 data=0 lcvid=0\n";

/// A text or line, the letter of its 12 and the column.
type Broken<'a> = (&'a [u8], &'a str, usize);

/// The report line of an unreadable line in a machine that has done nothing.
fn refused(step: u64, kind: &str, column: usize) -> String {
    format!("step={step} answer=refused-12{kind} data=0 lcvid=0 col={column}\n")
}

fn played(text: &[u8]) -> String {
    String::from_utf8(play(text)).unwrap()
}

fn played_as_step_1(line: &[u8]) -> String {
    played(&[b"caches=1\n", line].concat())
}

#[test]
fn the_request_has_an_example() {
    let text = b"caches=2\nop=load cache=0 vid=x at=5 data=0\n";
    assert_eq!(played(text), "step=1 answer=refused-12b data=0 lcvid=0 col=21\n");
}

#[test]
fn unreadable_first_lines() {
    let texts: [Broken; 25] = [
        (b"", "e", 1),
        (b"\n", "a", 1),
        (b"c", "e", 2),
        (b"caches", "e", 7),
        (b"caches=1", "e", 9),
        (b"caches=", "e", 8),
        (b"caches=\n", "b", 8),
        (b"caches\n", "a", 7),
        (b"caches=1\r\n", "e", 9),
        (b"caches=01\n", "b", 9),
        (b"caches=00\n", "b", 9),
        (b"caches=+1\n", "b", 8),
        (b"caches=-1\n", "b", 8),
        (b"caches=1 \n", "e", 9),
        (b" caches=1\n", "a", 1),
        (b"caches =1\n", "a", 7),
        (b"Caches=1\n", "a", 1),
        (b"caches=1x\n", "e", 9),
        (b"caches=18446744073709551616\n", "c", 27),
        (b"caches=184467440737095516150\n", "c", 28),
        (b"caches=5x\n", "e", 9),
        (b"\xef\xbb\xbfcaches=1\n", "a", 1),
        (b"caches=\x00\n", "b", 8),
        (b"caches=1\x00\n", "e", 9),
        (b"op=abort cache=0 vid=0 at=0 data=0\n", "a", 1),
    ];
    for (text, kind, column) in texts {
        let expected = refused(0, kind, column);
        assert_eq!(played(text), expected, "{text:?}");
        assert_eq!(play_showing_machine(text), expected.as_bytes(), "{text:?}");
    }
}

#[test]
fn first_line_alone_gives_an_empty_report() {
    assert_eq!(play(b"caches=1\n"), b"");
    assert_eq!(play(b"caches=4\n"), b"");
    let refused = b"step=0 answer=refused-1 data=0 lcvid=0\n";
    assert_eq!(play(b"caches=0\n"), refused);
    assert_eq!(play_showing_machine(b"caches=5\n"), refused);
    assert_eq!(play(b"caches=18446744073709551615\n"), refused);
}

/// "wrong key (any fixed text or op name broken off)"; "a number that is not
/// the last followed by a byte other than a digit or the space is 12a".
#[test]
fn wrong_keys() {
    let lines: [Broken; 19] = [
        (b"\n", "a", 1),
        (b"\nop=abort cache=0 vid=0 at=0 data=0\n", "a", 1),
        (b" op=load cache=0 vid=0 at=0 data=0\n", "a", 1),
        (b"op= cache=0 vid=0 at=0 data=0\n", "a", 4),
        (b"op=\n", "a", 4),
        (b"op=Load cache=0 vid=0 at=0 data=0\n", "a", 4),
        (b"op=5\n", "a", 4),
        (b"op=lo\n", "a", 6),
        (b"op=stoad cache=0 vid=0 at=0 data=0\n", "a", 7),
        (b"op=loads cache=0 vid=0 at=0 data=0\n", "a", 8),
        (b"op=load\x00 cache=0 vid=0 at=0 data=0\n", "a", 8),
        (b"op=load\tcache=0 vid=0 at=0 data=0\n", "a", 8),
        (b"op=load  cache=0 vid=0 at=0 data=0\n", "a", 9),
        (b"op=load vid=0 cache=0 at=0 data=0\n", "a", 9),
        (b"op=load cache=0x vid=0 at=0 data=0\n", "a", 16),
        (b"op=load cache=0\n", "a", 16),
        (b"op=load cache=0 vid=0x1 at=0 data=0\n", "a", 22),
        (b"op=load cache=0 vid=0 at=0\n", "a", 27),
        (b"op=load cache=0 vid=0 at=0 date=0\n", "a", 31),
    ];
    expect(&lines);
}

/// "bad number (no digit where one must stand, or a digit after a leading
/// zero)"; "`data=` and then LF is 12b"; "in a key that must be 0, `05` is 12b
/// at the 5".
#[test]
fn bad_numbers() {
    let lines: [Broken; 14] = [
        (b"op=load cache= vid=0 at=0 data=0\n", "b", 15),
        (b"op=load cache=00 vid=0 at=0 data=0\n", "b", 16),
        (b"op=load cache=0 vid=01 at=0 data=0\n", "b", 22),
        (b"op=load cache=0 vid=+1 at=0 data=0\n", "b", 21),
        (b"op=load cache=0 vid=-0 at=0 data=0\n", "b", 21),
        (b"op=load cache=0 vid=0 at=\n", "b", 26),
        (b"op=load cache=0 vid=0 at=0 data=\n", "b", 33),
        (b"op=load cache=0 vid=0 at=0 data=\x00\n", "b", 33),
        (b"op=load cache=0 vid=0 at=0 data=\xb2\n", "b", 33),
        (b"op=load cache=0 vid=0 at=0 data=\xff\n", "b", 33),
        (b"op=load cache=0 vid=0 at=0 data=05\n", "b", 34),
        (b"op=load cache=0 vid=0 at=0 data=00\n", "b", 34),
        (b"op=abort cache=00 vid=5 at=0 data=0\n", "b", 17),
        (b"op=store cache=0 vid=0 at=0 data=018446744073709551616\n", "b", 35),
    ];
    expect(&lines);
}

/// "the digit that first passes the limit"
#[test]
fn numbers_too_large() {
    let lines: [Broken; 8] = [
        (b"op=store cache=18446744073709551616 vid=0 at=0 data=0\n", "c", 35),
        (b"op=store cache=0 vid=18446744073709551620 at=0 data=0\n", "c", 41),
        (b"op=store cache=0 vid=0 at=20000000000000000000 data=0\n", "c", 46),
        (b"op=store cache=0 vid=0 at=0 data=18446744073709551616\n", "c", 53),
        (b"op=store cache=0 vid=0 at=0 data=18446744073709551616", "c", 53),
        (b"op=store cache=0 vid=0 at=0 data=99999999999999999999999999\n", "c", 53),
        (b"op=store cache=0 vid=0 at=0 data=184467440737095516150\n", "c", 54),
        (b"op=store cache=0 vid=0 at=0 data=100000000000000000000x\n", "c", 54),
    ];
    expect(&lines);
}

/// "any other number is 12d at its first digit, however long"
#[test]
fn keys_not_zero() {
    let lines: [Broken; 8] = [
        (b"op=load cache=0 vid=0 at=0 data=5\n", "d", 33),
        (b"op=load cache=0 vid=0 at=0 data=5", "d", 33),
        (b"op=load cache=0 vid=0 at=0 data=50\n", "d", 33),
        (b"op=load cache=0 vid=0 at=0 data=18446744073709551616\n", "d", 33),
        (b"op=load cache=0 vid=0 at=0 data=5x\n", "d", 33),
        (b"op=commit cache=1 vid=1 at=0 data=0\n", "d", 17),
        (b"op=evict cache=1 vid=1 at=0 data=0\n", "d", 22),
        (b"op=commit cache=0 vid=1 at=99999999999999999999999 data=0\n", "d", 28),
    ];
    expect(&lines);
}

/// "another byte than a digit or LF after a digit of the line's last number,
/// or the text ... ends inside a line"
#[test]
fn missing_line_ends() {
    let lines: [Broken; 9] = [
        (b"o", "e", 2),
        (b"op=", "e", 4),
        (b"op=load cache=", "e", 15),
        (b"op=load cache=0 vid=0 at=0 data=", "e", 33),
        (b"op=load cache=0 vid=0 at=0 data=0", "e", 34),
        (b"op=load cache=0 vid=0 at=0 data=0\r\n", "e", 34),
        (b"op=load cache=0 vid=0 at=0 data=0 \n", "e", 34),
        (b"op=load cache=0 vid=0 at=0 data=0 x=0\n", "e", 34),
        (b"op=store cache=0 vid=0 at=0 data=12\xff\n", "e", 36),
    ];
    expect(&lines);
}

fn expect(lines: &[Broken]) {
    for (line, kind, column) in lines {
        let shown = String::from_utf8_lossy(line);
        assert_eq!(played_as_step_1(line), refused(1, kind, *column), "{shown:?}");
    }
}

#[test]
fn a_text_may_end_at_any_byte_of_a_line() {
    let line = b"op=store cache=10 vid=2 at=5 data=18446744073709551615\n";
    for length in 1..line.len() {
        assert_eq!(played_as_step_1(&line[..length]), refused(1, "e", length + 1));
    }
}

#[test]
fn unused_keys_must_be_0() {
    let keys = ["cache", "vid", "at", "data"];
    let used: [(&str, &[&str]); 6] = [
        ("load", &["cache", "vid", "at"]),
        ("store", &["cache", "vid", "at", "data"]),
        ("commit", &["vid"]),
        ("abort", &[]),
        ("reset", &[]),
        ("evict", &["cache", "at"]),
    ];
    for (op, uses) in used {
        for key in keys {
            let value = |name: &str| u8::from(name == key);
            let numbers: String = keys.map(|name| format!(" {name}={}", value(name))).concat();
            let line = format!("op={op}{numbers}\n");
            let not_zero = refused(1, "d", line.find("=1").unwrap() + 2);
            let said = played_as_step_1(line.as_bytes());
            assert_eq!(said == not_zero, !uses.contains(&key), "{line}");
            assert_eq!(said.contains("refused-12"), !uses.contains(&key), "{line}");
        }
    }
}

#[test]
fn the_largest_number_is_a_word() {
    let steps = "S0 a5 d18446744073709551615, L0 a5, E0 s0, L0 v1 a5";
    let value = "answer=value data=18446744073709551615 lcvid=0\n";
    let expected = format!(
        "step=1 answer=done data=0 lcvid=0\nstep=2 {value}\
         step=3 answer=done data=0 lcvid=0\nstep=4 {value}"
    );
    assert_eq!(report(&trace(1, steps)), expected);
}

#[test]
fn the_limit_is_65536_bytes() {
    let mut text = b"caches=1\n".to_vec();
    text.extend_from_slice(&b"op=load cache=0 vid=0 at=0 data=0\n".repeat(1_926));
    text.extend_from_slice(b"op=store cache=0 vid=0 at=0 data=123456789\n");
    assert_eq!(text.len(), 65_536);
    let report = play(&text);
    assert!(report.ends_with(b"step=1927 answer=done data=0 lcvid=0\n"));
    text.insert(text.len() - 1, b'0');
    assert_eq!(text.len(), 65_537);
    assert_eq!(play(&text), TOO_LONG);
    assert_eq!(play_showing_machine(&text), TOO_LONG);
    assert_eq!(play(&[0xff; 65_537]), TOO_LONG);
    text.truncate(65_536);
    assert!(played(&text).ends_with("step=1927 answer=refused-12e data=0 lcvid=0 col=44\n"));
    assert_eq!(played(&[0xff; 65_536]), refused(0, "a", 1));
}

#[test]
fn one_byte_more_than_a_trace_is_an_unended_line() {
    let mut text = trace(1, "A").into_bytes();
    text.push(b'o');
    let expected = format!("step=1 answer=done data=0 lcvid=0\n{}", refused(2, "e", 2));
    assert_eq!(played(&text), expected);
}

#[test]
fn an_unreadable_step_shows_the_machine_as_it_stands() {
    let shown = play_showing_machine(b"caches=1\nop=store cache=0 vid=0 at=5 data=10\nx\n");
    let expected = "step=1 answer=done data=0 lcvid=0 | c0s0:M a5 m0 h0 w10 | mem\n\
                    step=2 answer=refused-12a data=0 lcvid=0 col=1 | c0s0:M a5 m0 h0 w10 | mem\n";
    assert_eq!(String::from_utf8(shown).unwrap(), expected);
    let empty = play_showing_machine(b"caches=1\nx\n");
    assert_eq!(empty, b"step=1 answer=refused-12a data=0 lcvid=0 col=1 | | mem\n");
}
