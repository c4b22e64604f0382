//! Order 7: "Read order 6's header for 1 to 16 wires (names of 1 to 32 characters and one-character codes, ! to ~, each
//! once), then times up to 4,000,000,000 ns, no leading zeros, each with any value lines of those codes". Which texts are
//! inside, and which are refused by 10.

use super::captures::*;

/// The number of a header with these wires and, behind it, these lines; the first two wires are named.
fn of_wires(wires: &[(&str, &str)], lines: &str) -> u8 {
    let name = |place: usize| wires[place.min(wires.len() - 1)].1.as_bytes();
    let reading = Reading { names: [name(0), name(1)], ..Reading::AT_9600 };
    reading.of(header(wires) + lines).err().unwrap_or(0)
}

fn after_header(lines: &str) -> u8 {
    number(two_wires() + lines)
}

#[test]
fn the_shortest_text() {
    assert_eq!(Reading::AT_9600.of(two_wires()), Ok([vec![], vec![]]));
    assert_eq!(number(""), 10);
}

/// "for 1 to 16 wires"
#[test]
fn how_many_wires() {
    let names: Vec<String> = (0..17).map(|wire| format!("w{wire}")).collect();
    let codes: Vec<String> = ('!'..='~').map(String::from).collect();
    let wires: Vec<(&str, &str)> = codes.iter().zip(&names).map(|(code, name)| (&code[..], &name[..])).collect();
    for count in 1..=16 {
        assert_eq!(of_wires(&wires[..count], "#0\n"), 0, "{count}");
    }
    assert_eq!(of_wires(&wires, "#0\n"), 10);
    assert_eq!(number(header(&[])), 10);
}

/// "names of 1 to 32 characters and one-character codes, ! to ~": no character is barred in a place.
#[test]
fn which_characters() {
    for byte in 0..=255 {
        let inside = if (33..=126).contains(&byte) { 0 } else { 10 };
        let with = |code: u8, name: &[u8]| {
            let head = b"$timescale 1 ns $end\n$scope module duart $end\n$var wire 1 ";
            let text = [&head[..], &[code], b" ", name, b" $end\n$upscope $end\n$enddefinitions $end\n"].concat();
            let reading = Reading { names: [name, name], ..Reading::AT_9600 };
            reading.of(text).err().unwrap_or(0)
        };
        assert_eq!(with(byte, b"A"), inside, "code {byte}");
        for name in [[byte, b'x', b'x'], [b'x', byte, b'x'], [b'x', b'x', byte]] {
            assert_eq!(with(b'!', &name), inside, "name {name:?}");
        }
        assert_eq!(with(b'!', &[byte]), inside, "a name of {byte} alone");
    }
}

#[test]
fn odd_names() {
    assert_eq!(of_wires(&[("!", "$end"), ("\"", "0")], "#0\n1!\n"), 0);
    assert_eq!(of_wires(&[("$", "OP[3]"), ("0", "$var")], "#0\n10\n0$\n"), 0);
    assert_eq!(of_wires(&[("!", "$upscope"), ("\"", "!")], ""), 0);
    let long = "n".repeat(32);
    assert_eq!(of_wires(&[("!", &long)], "#0\n"), 0);
    assert_eq!(of_wires(&[("!", &(long + "n"))], "#0\n"), 10);
    assert_eq!(of_wires(&[("!", "")], "#0\n"), 10);
    assert_eq!(of_wires(&[("!!", "A")], "#0\n"), 10);
    assert_eq!(of_wires(&[("", "A")], "#0\n"), 10);
    assert_eq!(of_wires(&[("!", "two words")], "#0\n"), 10);
}

/// "each once", of codes and of names.
#[test]
fn each_once() {
    assert_eq!(of_wires(&[("!", "A"), ("\"", "B"), ("#", "C")], ""), 0);
    assert_eq!(of_wires(&[("!", "A"), ("\"", "B"), ("!", "C")], ""), 10);
    assert_eq!(of_wires(&[("!", "A"), ("\"", "B"), ("#", "A")], ""), 10);
    assert_eq!(of_wires(&[("!", "A"), ("\"", "a")], ""), 0);
    assert_eq!(of_wires(&[("!", "A"), ("A", "!")], ""), 0);
}

/// Codes may be `#`, `$`, `0` or `1`: `10` is value 1 of code `0`, and what begins with `#` is a time.
#[test]
fn codes_that_look_like_something_else() {
    let wires = [("0", "A"), ("1", "B"), ("#", "C"), ("$", "D")];
    assert_eq!(of_wires(&wires, "#0\n10\n00\n11\n01\n1#\n0#\n1$\n0$\n#1\n"), 0);
    assert_eq!(of_wires(&wires, "#0\n##\n"), 10);
    assert_eq!(of_wires(&wires[1..], "#0\n10\n"), 10);
    let low = Capture::default().levels("0", 0, BIT, "1 0 10101010 1");
    let reading = Reading { names: [b"A", b"B"], ..Reading::AT_9600 };
    assert_eq!(reading.of(header(&wires) + &low.lines()), Ok([vec![(0x55, 0)], vec![]]));
}

/// The header byte for byte: no line is optional, none comes twice, and none has a blank more or less.
#[test]
fn each_line_of_the_header() {
    let whole = two_wires();
    assert_eq!(number(&whole), 0);
    let lines: Vec<&str> = whole.split_inclusive('\n').collect();
    for place in 0..lines.len() {
        let without = [&lines[..place], &lines[place + 1..]].concat().concat();
        let number_of = |text: &str| Reading { names: [b"B", b"A"], ..Reading::AT_9600 }.of(text).err().unwrap_or(0);
        assert_eq!(number_of(&without), 10, "without {:?}", lines[place]);
        let twice = [&lines[..=place], &lines[place..]].concat().concat();
        assert_eq!(number_of(&twice), 10, "twice {:?}", lines[place]);
        for between in ["\n", " \n", "\r\n", "$comment x $end\n"] {
            let with = [&lines[..place], &[between], &lines[place..]].concat().concat();
            assert_eq!(number(with), 10, "{between:?} before {:?}", lines[place]);
        }
        if place + 1 < lines.len() {
            let exchanged = [&lines[..place], &[lines[place + 1], lines[place]], &lines[place + 2..]].concat().concat();
            assert_eq!(number(exchanged), if place == 2 { 0 } else { 10 }, "exchanged at {place}");
        }
    }
}

/// Each byte of it left out, doubled, or made another.
#[test]
fn each_byte_of_the_header() {
    let whole = two_wires().into_bytes();
    let (first_var, ends) = (46, 46 + 2 * "$var wire 1 ! A $end\n".len());
    for place in 0..whole.len() {
        let without = [&whole[..place], &whole[place + 1..]].concat();
        assert_eq!(number(without), 10, "without byte {place}");
        let doubled = [&whole[..=place], &whole[place..]].concat();
        assert_eq!(number(doubled), 10, "byte {place} twice");
        let in_a_var = (first_var..ends).contains(&place);
        let mut other = whole.clone();
        for byte in (0..=255).filter(|byte| *byte != whole[place]) {
            other[place] = byte;
            let is_code = in_a_var && (place - first_var) % 21 == 12;
            let another = is_code && (33..=126).contains(&byte) && !is_other_code(place, byte);
            assert_eq!(number(&other), if another { 0 } else { 10 }, "byte {place} as {byte}");
        }
    }
}

/// Whether the byte is the other wire's code.
fn is_other_code(place: usize, byte: u8) -> bool {
    byte == if place < 60 { b'"' } else { b'!' }
}

/// "no leading zeros": `0`, or digits that begin with 1 to 9.
#[test]
fn times() {
    for inside in ["0", "1", "9", "10", "271", "1000000000", "3999999999", "4000000000"] {
        assert_eq!(after_header(&format!("#{inside}\n")), 0, "{inside}");
    }
    for outside in [
        "", "00", "01", "0271", "+1", "-1", " 1", "1 ", "1.", "1e3", "0x1", "1_0", "4000000001", "4294967296",
        "9999999999", "10000000000", "18446744073709551616", "18446744073709551617", "99999999999999999999",
        "00000000000000000001", "1a", "a", "#1",
    ] {
        assert_eq!(after_header(&format!("#{outside}\n")), 10, "{outside}");
        assert_eq!(after_header(&format!("#5\n1!\n#{outside}\n")), 10, "{outside}");
    }
    assert_eq!(after_header(&format!("#{}\n", "1".repeat(400))), 10);
    assert_eq!(after_header(&format!("#{}\n", "0".repeat(400))), 10);
}

/// A value line belongs to a time, so none stands before the first; a time may have none, or as many as it likes.
#[test]
fn value_lines() {
    assert_eq!(after_header("1!\n"), 10);
    assert_eq!(after_header("1!\n#0\n"), 10);
    assert_eq!(after_header("#0\n#1\n#2\n1!\n0!\n1!\n0\"\n0!\n#3\n"), 0);
}

/// "such as `1!`" (order 6): 0 and 1 alone, of a code of the header, and nothing else after it.
#[test]
fn other_lines() {
    for line in [
        "x!", "z!", "X!", "Z!", "2!", "-!", "b1 !", "b0 \"", "r1.5 !", "1 !", "1! ", " 1!", "1", "!", "1#", "0$",
        "1!0\"", "1! 0\"", "#1 1!", "1!!", "11!", "", "\t", "1!\r", "$dumpvars", "$end", "$dumpvars 1! $end",
        "$comment x $end", "$dumpoff", "$upscope $end", "0", "1\u{e9}",
    ] {
        for at in [format!("#0\n{line}\n"), format!("#0\n1!\n{line}\n#5\n0\"\n")] {
            assert_eq!(after_header(&at), 10, "{line:?}");
        }
    }
    assert_eq!(after_header("#0\n1!\n\n"), 10, "a blank line at the end");
}

/// "Lines, each ended by LF" (order 6): the last one too.
#[test]
fn the_last_line_has_its_lf() {
    let text = two_wires() + "#0\n1!\n#271\n0!\n";
    assert_eq!(number(&text), 0);
    for cut in 0..text.len() {
        let whole_lines = cut >= two_wires().len() && text.as_bytes()[cut - 1] == b'\n';
        assert_eq!(number(&text[..cut]), if whole_lines { 0 } else { 10 }, "the first {cut} bytes");
    }
}

/// What common tools write is outside as it stands.
#[test]
fn what_others_write() {
    let ours = two_wires() + "#0\n1!\n1\"\n#271\n0!\n";
    assert_eq!(number(&ours), 0);
    let altered = |from: &str, to: &str| number(ours.replacen(from, to, 1));
    assert_eq!(altered("$timescale", "$date\n    Mon\n$end\n$version\n    Icarus Verilog\n$end\n$timescale"), 10);
    assert_eq!(altered("$timescale 1 ns $end", "$timescale\n\t1ns\n$end"), 10);
    assert_eq!(altered("1 ns", "1ns"), 10);
    assert_eq!(altered("1 ns", "100 ps"), 10);
    assert_eq!(altered("1 ns", "1 us"), 10);
    assert_eq!(altered("module duart", "module bench"), 10);
    assert_eq!(altered("module duart", "module libsigrok"), 10);
    assert_eq!(altered("$var wire", "$var reg"), 10);
    assert_eq!(altered("#0\n1!\n1\"\n", "#0\n$dumpvars\n1!\n1\"\n$end\n"), 10);
    assert_eq!(altered("1!", "x!"), 10);
    assert_eq!(altered("#0\n1!\n1\"\n", "#0 1! 1\"\n"), 10);
    assert_eq!(number(ours.replace('\n', "\r\n")), 10);
}
