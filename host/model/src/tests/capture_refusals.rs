//! Order 7: "There are two lent logs, one per channel .. the caller names a channel and is handed the filled part of that
//! channel's log." "Refusals, in this order: 5 (a code above 12 too), 10 text outside the subset or a named wire missing,
//! 11 a time not later than the one before, 8 either log too short; the part is then empty and both logs stay."

use super::captures::*;
use crate::Captured;

fn refused(number: u8) -> Captured {
    Captured { number, length: 0 }
}

/// Two characters on A, one on B.
fn three() -> String {
    let a = Capture::default().levels("!", BIT, BIT, "0 10101010 1 0 10000010 1 1");
    a.levels("\"", BIT, BIT, "0 11000000 1").text()
}

const A: [u8; 4] = [85, 0, 65, 0];
const B: [u8; 2] = [3, 0];

/// The text read into logs of so many bytes, the channel named: the answer and both logs.
fn filled(text: &str, sizes: [usize; 2], channel_b: bool) -> (Captured, [Vec<u8>; 2]) {
    let mut logs = sizes.map(|size| vec![UNWRITTEN; size]);
    let [log_a, log_b] = &mut logs;
    let told = Reading::AT_9600.filling(text, log_a, log_b, channel_b);
    (told, logs)
}

/// Both are filled at each accepted call, whichever channel is named; what is handed is of the named one.
#[test]
fn both_logs_are_filled() {
    for (channel_b, length) in [(false, 4), (true, 2)] {
        let (told, logs) = filled(&three(), [6, 5], channel_b);
        assert_eq!(told, Captured { number: 0, length });
        let past = [UNWRITTEN; 3];
        assert_eq!(logs, [[&A[..], &past[..2]].concat(), [&B[..], &past].concat()]);
    }
}

/// "8 either log too short": each must hold its own channel's characters, whichever is named. A log of 2k+1 bytes holds k.
#[test]
fn short_logs() {
    for channel_b in [false, true] {
        for (sizes, number) in [
            ([4, 2], 0),
            ([5, 3], 0),
            ([3, 2], 8),
            ([4, 1], 8),
            ([4, 0], 8),
            ([0, 2], 8),
            ([2, 4], 8),
            ([3, 1], 8),
            ([1_000, 1], 8),
            ([3, 1_000], 8),
        ] {
            let (told, logs) = filled(&three(), sizes, channel_b);
            assert_eq!(told.number, number, "{sizes:?}");
            let untouched = logs.iter().flatten().all(|byte| *byte == UNWRITTEN);
            assert_eq!((untouched, told.length == 0), (number == 8, number == 8), "{sizes:?}");
        }
    }
    let (told, logs) = filled(&three(), [5, 3], false);
    assert_eq!((told.length, logs[0][4], logs[1][2]), (4, UNWRITTEN, UNWRITTEN), "an odd byte is not used");
    assert_eq!(filled(&two_wires(), [0, 0], true).0, Captured { number: 0, length: 0 });
}

/// "the caller names the two wires": they may be the same one, and both channels then have its characters.
#[test]
fn the_named_wires() {
    let named = |a: &'static [u8], b: &'static [u8]| {
        let reading = Reading { names: [a, b], ..Reading::AT_9600 };
        reading.of(three())
    };
    let (a, b) = (vec![(85, 0), (65, 0)], vec![(3, 0)]);
    assert_eq!(named(b"A", b"B"), Ok([a.clone(), b.clone()]));
    assert_eq!(named(b"B", b"A"), Ok([b.clone(), a.clone()]));
    assert_eq!(named(b"A", b"A"), Ok([a.clone(), a]));
    assert_eq!(named(b"B", b"B"), Ok([b.clone(), b]));
}

/// A name is a whole name; one of none or of more than 32 characters is no wire's.
#[test]
fn a_wire_that_is_missing() {
    let named = |a: &[u8], b: &[u8]| Reading { names: [a, b], ..Reading::AT_9600 }.of(three()).err();
    for name in [&b"C"[..], b"", b"a", b"!", b"AB", b"A ", b" A", &[b'A'; 33], &[b'A'; 1_000]] {
        assert_eq!(named(name, b"B"), Some(10), "{name:?}");
        assert_eq!(named(b"A", name), Some(10), "{name:?}");
        assert_eq!(named(name, name), Some(10), "{name:?}");
    }
    let long = "n".repeat(32);
    let text = header(&[("!", &long)]);
    let name = |count: usize| vec![b'n'; count];
    for (count, number) in [(31, Some(10)), (32, None), (33, Some(10))] {
        let reading = Reading { names: [&name(count), &name(count)], ..Reading::AT_9600 };
        assert_eq!(reading.of(&text).err(), number, "{count}");
    }
}

/// "11 a time not later than the one before": equal ones too, and 0 after 0.
#[test]
fn times_that_are_not_later() {
    for (lines, told) in [
        ("#0\n", 0),
        ("#0\n#0\n", 11),
        ("#5\n#4\n", 11),
        ("#5\n#6\n#6\n", 11),
        ("#5\n1!\n#5\n0!\n", 11),
        ("#5\n#6\n#5\n#7\n", 11),
        ("#9\n#10\n", 0),
        ("#4000000000\n#4000000000\n", 11),
        ("#4000000000\n#0\n", 11),
    ] {
        assert_eq!(number(two_wires() + lines), told, "{lines:?}");
    }
}

/// 10 exactly when the text is outside the subset anywhere, and 11 only for a text wholly inside it.
#[test]
fn ten_before_eleven() {
    let after = |lines: &str| number(two_wires() + lines);
    assert_eq!(after("#5\n#5\n"), 11);
    assert_eq!(after("#5\n#5\nx!\n"), 10);
    assert_eq!(after("#5\n#5"), 10);
    assert_eq!(after("#5\n#4000000001\n"), 10);
    assert_eq!(after("#4000000001\n#4000000001\n"), 10);
    assert_eq!(after("#5\n#5\n#05\n"), 10);
    let missing = Reading { names: [b"A", b"C"], ..Reading::AT_9600 };
    assert_eq!(missing.of(two_wires() + "#5\n#5\n"), Err(10));
}

/// 11 comes before 8: a time that is repeated, with both logs too short.
#[test]
fn eleven_before_eight() {
    let repeated = three() + "#5\n";
    for sizes in [[0, 0], [4, 2], [3, 1]] {
        assert_eq!(filled(&repeated, sizes, false), (refused(11), sizes.map(|size| vec![UNWRITTEN; size])));
    }
}

/// "5 (a code above 12 too)" looks at MR1 and the code alone, before the text.
#[test]
fn five_before_all() {
    for mr1 in 0..=255u8 {
        let told = if mr1 >> 7 == 1 || mr1 >> 3 & 0b11 == 0b11 { 5 } else { 10 };
        let reading = Reading { mr1, ..Reading::AT_9600 };
        assert_eq!(reading.filling("", &mut [], &mut [], false), refused(told), "MR1 {mr1}");
    }
    for code in 0..=255u8 {
        for acr_bit_7 in [false, true] {
            let told = if code > 12 { 5 } else { 10 };
            let reading = Reading { code, acr_bit_7, ..Reading::AT_9600 };
            assert_eq!(reading.filling("", &mut [], &mut [], true), refused(told), "code {code}");
        }
    }
    let refusing = Reading { code: 13, names: [b"", b""], ..Reading::AT_9600 };
    assert_eq!(refusing.filling(three() + "#5\nx", &mut [], &mut [], false), refused(5));
}
