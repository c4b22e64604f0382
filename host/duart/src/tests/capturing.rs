//! A capture (order 7) through the archive. host/differential has what is drawn; these are the words of `capture`.

use crate::bits::{mr1, sr};
use crate::{capture, capture_raw, characters, Capture, CaptureAnswer, Channel, Received, Refusal, CAPTURE_SPACE};

/// What no capture writes: no mark has it, nor a byte that is sent here.
const UNWRITTEN: u8 = 0x1d;

const HEADER: &str = "$timescale 1 ns $end\n$scope module duart $end\n$var wire 1 ! RxDA $end\n$var wire 1 \" RxDB $end\n\
    $upscope $end\n$enddefinitions $end\n";

/// At 9,600 bits a second, a bit being 384 ticks: 0xff and a 0xff with a low stop on A, a break on B.
const LINES: &str = "#0\n1!\n1\"\n#104167\n0!\n0\"\n#208334\n1!\n#1250000\n0!\n#1354167\n1!\n#2187500\n0!\n1\"\n#2400000\n1!\n";
const A: [u8; 4] = [0xff, 0, 0xff, 0x40];
const B: [u8; 2] = [0, 0x80];

fn asked(text: &str) -> Capture<'_> {
    let eight_bits = (mr1::NO_PARITY | mr1::DATA_BITS_8).byte();
    Capture { mr1: eight_bits, acr7: false, code: 11, text: text.as_bytes(), name_a: b"RxDA", name_b: b"RxDB" }
}

/// The answer, and both logs, of so many bytes, after it.
fn read(asked: &Capture, sizes: [usize; 2], channel: Channel) -> (CaptureAnswer, [Vec<u8>; 2]) {
    let mut logs = sizes.map(|size| vec![UNWRITTEN; size]);
    let [log_a, log_b] = &mut logs;
    let answer = capture_raw(asked, log_a, log_b, channel);
    (answer, logs)
}

#[test]
fn both_logs_are_filled_and_the_named_part_is_handed() {
    let text = [HEADER, LINES].concat();
    for (channel, part) in [(Channel::A, &A[..]), (Channel::B, &B)] {
        let (answer, logs) = read(&asked(&text), [7, 4], channel);
        assert_eq!(answer, CaptureAnswer { number: 0, length: part.len() });
        assert_eq!(logs[0], [&A[..], &[UNWRITTEN; 3]].concat());
        assert_eq!(logs[1], [&B[..], &[UNWRITTEN; 2]].concat());
        let (mut log_a, mut log_b) = ([0; 4], [0; 2]);
        assert_eq!(capture(&asked(&text), &mut log_a, &mut log_b, channel), Ok(part));
    }
}

#[test]
fn a_part_is_its_characters() {
    let marks: Vec<u8> = characters(&A).chain(characters(&B)).map(|received| received.marks).collect();
    assert_eq!(marks, [0, sr::FRAMING.byte(), sr::BREAK.byte()]);
    assert_eq!(characters(&A).next(), Some(Received { data: 0xff, marks: 0 }));
    assert_eq!((characters(&A).len(), characters(&A[..3]).len(), characters(&[]).len()), (2, 1, 0));
}

#[test]
fn the_wires_are_named() {
    let text = [HEADER, LINES].concat();
    let crossed = Capture { name_a: b"RxDB", name_b: b"RxDA", ..asked(&text) };
    let (_, logs) = read(&crossed, [2, 4], Channel::A);
    assert_eq!(logs, [B.to_vec(), A.to_vec()]);
    let same = Capture { name_b: b"RxDA", ..asked(&text) };
    assert_eq!(read(&same, [4, 4], Channel::B).1, [A.to_vec(), A.to_vec()]);
}

#[test]
fn it_is_refused_in_order_and_both_logs_stay() {
    let text = [HEADER, LINES].concat();
    let repeated = [&text, "#5\n"].concat();
    let broken = [&repeated, "x!\n"].concat();
    let whole = asked(&text);
    for (asked, sizes, refusal) in [
        (Capture { mr1: 0x80, ..asked(&broken) }, [0, 0], Refusal::NotModelled),
        (Capture { mr1: 0x18, ..whole }, [4, 2], Refusal::NotModelled),
        (Capture { code: 13, ..asked("") }, [4, 2], Refusal::NotModelled),
        (asked(""), [4, 2], Refusal::OutsideSubset),
        (asked(&broken), [0, 0], Refusal::OutsideSubset),
        (Capture { name_a: b"", ..whole }, [4, 2], Refusal::OutsideSubset),
        (Capture { name_b: b"RxD", ..asked(&repeated) }, [4, 2], Refusal::OutsideSubset),
        (asked(&repeated), [0, 0], Refusal::TimeNotLater),
        (whole, [3, 2], Refusal::SpaceShort),
        (whole, [4, 1], Refusal::SpaceShort),
    ] {
        for channel in [Channel::A, Channel::B] {
            let (answer, logs) = read(&asked, sizes, channel);
            assert_eq!(answer, CaptureAnswer { number: refusal.number(), length: 0 });
            assert_eq!(logs, sizes.map(|size| vec![UNWRITTEN; size]));
            let (mut log_a, mut log_b) = (vec![0; sizes[0]], vec![0; sizes[1]]);
            assert_eq!(capture(&asked, &mut log_a, &mut log_b, channel), Err(refusal));
        }
    }
}

/// A dump of a chip is read back.
#[test]
fn a_dump_is_read_back() {
    use crate::{dump_space, Duart, Event, EventRecord};

    let writes = [(0, 0x13), (0, 0x07), (1, 0xbb), (2, 0x04)].map(|(register, byte)| Event::Write(register, byte));
    let mut events = [&writes[..], &[Event::Tick; 24], &[Event::Write(3, b'U')], &[Event::Tick; 4_000]].concat();
    events.push(Event::Write(14, 0x01));
    let events: Vec<EventRecord> = events.into_iter().map(EventRecord::from).collect();
    let mut space = vec![0; dump_space(events.len())];
    let length = Duart::fresh().dump(&events, &mut space).expect("there is space");
    let asked = Capture { text: &space[..length], name_a: b"TxDA", name_b: b"OP7", ..asked("") };
    let (mut log_a, mut log_b) = (vec![0; CAPTURE_SPACE], []);
    assert_eq!(capture(&asked, &mut log_a, &mut log_b, Channel::A), Ok(&[b'U', 0][..]));
}
