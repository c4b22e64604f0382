//! Order 7: "Turn each line, up to the last time, into characters by document 01's receiver, just enabled, phase 0, for a
//! given MR1, ACR bit 7 and CSR code 0 to 12. Tick n samples the level at order 6's time." What is read of a text that is
//! inside the subset.

use super::board::{BREAK, FRAMING, PARITY};
use super::captures::*;
use crate::dump::time_of;

const U: &str = "0 10101010 1";

/// At 9,600 bits a second: a high, a start bit, 85 and a stop bit. Times of the second wire are times of the first too.
#[test]
fn a_character_on_each_line() {
    let both = Capture::default().levels("!", 0, BIT, "1 0 10101010 1").levels("\"", 100, BIT, "1 0 10000010 1 11");
    assert_eq!(Reading::AT_9600.of(both.text()), Ok([vec![(85, 0)], vec![(65, 0)]]));
}

/// "high before their first value": from time 0 on, wherever the first time stands; times are not moved.
#[test]
fn high_before_the_first_value() {
    for tick in [BIT, 12_345, 1_000_000, 14_700_000] {
        assert_eq!(Capture::default().levels("!", tick, BIT, U).a(), [(85, 0)], "{tick}");
    }
    assert_eq!(Capture::default().levels("\"", 0, BIT, "1 0 10101010 1").a(), [], "a wire with no value");
    assert_eq!(Capture::default().time(5).time(4_000_000_000).a(), []);
}

/// The last time is the last `#` line, with or without values and on whatever wire; a tick at that very time counts. The
/// stop sample comes 152 pulses after the low pulse.
#[test]
fn up_to_the_last_time() {
    let stop_sample = BIT + (8 + 16 * 9) * PULSE;
    let ended_at = |time: u64| {
        let text = Capture::default().levels("!", BIT, BIT, U).text();
        let end = format!("#{}\n", time_of(11 * BIT));
        let open = text.strip_suffix(&end).expect("it ends so").to_string();
        open + &format!("#{time}\n")
    };
    let time = time_of(stop_sample);
    for line in ["", "1\"\n", "0\"\n", "1!\n"] {
        let read = |time: u64| Reading::AT_9600.of(ended_at(time) + line);
        assert_eq!(read(time), Ok([vec![(85, 0)], vec![]]), "{line:?}");
        assert_eq!(read(time - 1), Ok([vec![], vec![]]), "{line:?}");
    }
    let low_at_the_end = Reading::AT_9600.of(ended_at(time) + "0!\n");
    assert_eq!(low_at_the_end, Ok([vec![(85, FRAMING)], vec![]]), "the last time's values count");
}

/// "Tick n samples the level at order 6's time": value lines of that very time count already, those a nanosecond later not.
#[test]
fn the_level_at_a_time() {
    let sample = BIT + (8 + 16 * 8) * PULSE; // of the last data bit, which is 0 in 85
    let with = |time: u64, back: u64| {
        let spike = Capture::default().levels("!", BIT, BIT, U).value(time, "1!").value(back, "0!");
        spike.a()
    };
    let time = time_of(sample);
    assert_eq!(with(time, time + 1), [(0x55 | 0x80, 0)]);
    assert_eq!(with(time + 1, time + 2), [(0x55, 0)]);
    assert_eq!(with(time - 1, time), [(0x55, 0)]);
    assert_eq!(with(time - 270, time + 1), [(0x55 | 0x80, 0)]);
}

/// "the last of a code counting": for a tick at that time and after.
#[test]
fn several_values_at_one_time() {
    let time = |bit: u64| time_of(BIT + bit * BIT);
    let twice = Capture::default().levels("!", BIT, BIT, U).value(time(8), "1!").value(time(8), "0!");
    assert_eq!(twice.a(), [(0x55, 0)]);
    let and_back = twice.value(time(8), "1!");
    assert_eq!(and_back.a(), [(0x55 | 0x80, 0)]);
}

/// "just enabled, phase 0": the first pulse is in tick P, and a high must be sampled before a low counts.
#[test]
fn just_enabled() {
    let from = |tick: u64| Capture::default().levels("!", tick, BIT, "0 11111111 1 1").a();
    assert_eq!(from(0), [], "low from time 0");
    assert_eq!(from(PULSE), [], "low at the first pulse");
    assert_eq!(from(PULSE + 1), [(255, 0)], "one high before it");
    let low_then_both = Capture::default().levels("!", 0, BIT, "000 1 0 10101010 1 1");
    assert_eq!(low_then_both.a(), [(85, 0)]);
}

/// The low pulse p is the first pulse at or after the fall, and p+8 decides: its own time and no other.
#[test]
fn p_and_p_plus_8() {
    for (fall, low) in [(20 * PULSE, true), (20 * PULSE + 1, false), (19 * PULSE + 1, true)] {
        // low from the fall to the pulse 8 after p = 20, where the line is high again or not
        let rise = 28 * PULSE + u64::from(low);
        let end = time_of(400 * PULSE);
        let short = Capture::default().value(time_of(fall), "0!").value(time_of(rise), "1!").time(end);
        assert_eq!(short.a(), if low { vec![(255, 0)] } else { vec![] }, "{fall}");
    }
}

/// Each code of each set: a character sent by the ticks that document 01 lists, and the period before and after it reads
/// another, or none.
#[test]
fn each_code() {
    let sets = [
        [4608, 2096, 1712, 1152, 768, 384, 192, 220, 96, 48, 32, 24, 6],
        [3072, 2096, 1712, 1536, 768, 384, 192, 115, 96, 48, 128, 24, 12],
    ];
    for (acr_bit_7, periods) in [false, true].into_iter().zip(sets) {
        for (code, period) in (0..13).zip(periods) {
            let text = Capture::default().levels("!", 2 * period, 16 * period, "0 10110010 1").text();
            let reading = Reading { acr_bit_7, code, ..Reading::AT_9600 };
            assert_eq!(reading.of(text), Ok([vec![(0x4d, 0)], vec![]]), "{acr_bit_7} {code}");
            let last = time_of((2 + 8 + 16 * 9) * period);
            let fast = Capture::default().value(time_of(2 * period), "0!").value(time_of(2 * period + 9 * period), "1!");
            let read = |end: u64| reading.of(fast.text() + &format!("#{end}\n"));
            assert_eq!(read(last), Ok([vec![(255, 0)], vec![]]), "{acr_bit_7} {code}");
            assert_eq!(read(last - 1), Ok([vec![], vec![]]), "{acr_bit_7} {code}");
        }
    }
}

/// 4,000,000,000 ns is the time of tick 14,745,600 exactly, which is a pulse of code 12: its stop sample is read.
#[test]
fn the_last_time_of_all() {
    assert_eq!(time_of(14_745_600), 4_000_000_000);
    assert_eq!(14_745_600u64 * 625_000 % 2_304, 0);
    let start = 14_745_600 - 6 * (8 + 16 * 9);
    let fast = Reading { code: 12, ..Reading::AT_9600 };
    let levels = Capture::default().value(time_of(start), "0!").value(time_of(start + 9 * 6), "1!");
    assert_eq!(fast.of(levels.text() + "#4000000000\n"), Ok([vec![(255, 0)], vec![]]));
    assert_eq!(fast.of(levels.text() + "#3999999999\n"), Ok([vec![], vec![]]));
    assert_eq!(fast.of(levels.text() + "#4000000000\n0!\n"), Ok([vec![(255, FRAMING)], vec![]]));
}

/// "two bytes a character (data, marks as SR 7-5)": 128 break, 64 framing, 32 parity, and no other bit.
#[test]
fn marks() {
    let even = Reading { mr1: 0x03, ..Reading::AT_9600 };
    for (levels, character) in [
        ("1 0 10101010 0 1 1", (85, 0)),
        ("1 0 10101010 1 1 1", (85, PARITY)),
        ("1 0 10101010 0 0 1", (85, FRAMING)),
        ("1 0 10101010 1 0 1", (85, FRAMING | PARITY)),
        ("1 0 00000000 0 0 1", (0, BREAK)),
        ("1 0 00000000 1 0 1", (0, FRAMING | PARITY)),
        ("1 0 00000000 0 1 1", (0, 0)),
    ] {
        let text = Capture::default().levels("!", 0, BIT, levels).text();
        assert_eq!(even.of(text), Ok([vec![character], vec![]]), "{levels}");
    }
    assert_eq!([BREAK, FRAMING, PARITY, FRAMING | PARITY], [128, 64, 32, 96]);
}

/// MR1 bits 6 and 5 are allowed and not used: marks are the character's own, and not the sums of a block.
#[test]
fn no_block_sums() {
    let levels = "1 0 10101010 1 1 1 0 11000000 0 1 1";
    let text = Capture::default().levels("!", 0, BIT, levels).text();
    for bits in [0x00, 0x20, 0x40, 0x60] {
        let reading = Reading { mr1: 0x03 | bits, ..Reading::AT_9600 };
        assert_eq!(reading.of(&text), Ok([vec![(85, PARITY), (3, 0)], vec![]]), "{bits}");
    }
}

/// Widths and parities, one MR1 for both lines: the unused bits are 0.
#[test]
fn formats() {
    for (mr1, levels, character) in [
        (0x10, "0 11111 1", (31, 0)),
        (0x11, "0 111111 1", (63, 0)),
        (0x12, "0 1000001 1", (65, 0)),
        (0x02, "0 1000001 0 1", (65, 0)),
        (0x06, "0 1000001 1 1", (65, 0)),
        (0x06, "0 1000001 0 1", (65, PARITY)),
        (0x0a, "0 1000001 0 1", (65, 0)),
        (0x0a, "0 1000001 1 1", (65, PARITY)),
        (0x0e, "0 1000001 1 1", (65, 0)),
        (0x0e, "0 1000001 0 1", (65, PARITY)),
    ] {
        let both = Capture::default().levels("!", BIT, BIT, levels).levels("\"", BIT, BIT, levels);
        let reading = Reading { mr1, ..Reading::AT_9600 };
        assert_eq!(reading.of(both.text()), Ok([vec![character], vec![character]]), "{mr1} {levels}");
    }
}

/// Every character that arrives, in order: nobody reads, there is no queue of three and nothing overruns.
#[test]
fn more_than_three() {
    let bytes: Vec<u8> = (1..=9).collect();
    let levels: String = bytes.iter().map(|byte| sent(*byte)).collect();
    let read = Capture::default().levels("!", BIT, BIT, &levels).a();
    assert_eq!(read, bytes.iter().map(|byte| (*byte, 0)).collect::<Vec<_>>());
}

/// A start bit, eight data bits, a stop bit.
fn sent(byte: u8) -> String {
    let bits: String = (0..8).map(|bit| if byte >> bit & 1 == 1 { '1' } else { '0' }).collect();
    format!("0{bits}1")
}

/// What follows a low stop and a break is document 01's: eight lows and a new p; eight highs in a row.
#[test]
fn after_a_low_stop_and_a_break() {
    let framing = Capture::default().levels("!", BIT, BIT, "0 10000000 0 0 10000000 1 1").a();
    assert_eq!(framing, [(1, FRAMING), (1, 0)]);
    let broken = Capture::default().levels("!", BIT, BIT, "0 00000000 0 000000000000 1 0 01000000 1 1").a();
    assert_eq!(broken, [(0, BREAK), (2, 0)]);
}

/// 23,405 characters are the most there can be on a line: 5 bits, no parity, code 12 of the first set, 105 pulses each.
#[test]
fn the_most_characters() {
    let most = 23_405u64;
    assert_eq!((2_457_600 - 1) / 105, most);
    let frames = (0..=most).map(|frame| 2 + 105 * frame);
    let told = frames.fold(Capture::default(), |all, p| {
        let all = all.value(time_of(6 * p).min(4_000_000_000), "0!");
        all.value(time_of(6 * (p + 104)).min(4_000_000_000), "1!")
    });
    let text = told.time(4_000_000_000).text();
    let fast = Reading { mr1: 0x10, code: 12, ..Reading::AT_9600 };
    let read = fast.of(&text).expect("it is inside the subset");
    assert_eq!(read, [vec![(0, 0); most as usize], vec![]]);
    let (mut long, mut short) = (vec![0; 46_810], vec![0; 46_809]);
    assert_eq!(fast.filling(&text, &mut long, &mut [], false).number, 0);
    assert_eq!(fast.filling(&text, &mut short, &mut [], false).number, 8);
}
