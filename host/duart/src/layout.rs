//! Where each field of what crosses lies, as `DUART_LAYOUT` of include/duart.h has it: declarations in which one lies
//! otherwise, say with two fields exchanged, do not compile. The test compares host/layout/record, which host/test
//! compares with what a C program prints of the header.

use crate::device::{Bits, Character, Format, Front, Inputs, Marks, Outputs, Phases, Pulses, Queue, Receiver, Sampler};
use crate::device::{Setting, Shifter, Side, Ticks, Timer, Transmitter};
use crate::{CaptureAnswer, Device, DumpAnswer, EventRecord, FrameAnswer, Polled, Ran, Seen};
use core::mem::size_of;

/// As `core`'s, which a rustc before 1.77 has not: the field's bytes are made 1, and the first that is 1 is looked for.
macro_rules! offset_of {
    ($type:ident, $field:tt) => {{
        union Place {
            bytes: [u8; size_of::<$type>()],
            value: $type,
        }
        let mut place = Place { bytes: [0; size_of::<$type>()] };
        // SAFETY: what crosses are whole numbers and bools, and 1 in each byte is a value of either.
        place.value.$field = unsafe { Place { bytes: [1; size_of::<$type>()] }.value.$field };
        let mut at = 0;
        // SAFETY: before the field's first byte, at which this ends, stand the zeros.
        while unsafe { place.bytes[at] } == 0 {
            at += 1;
        }
        at
    }};
}

/// `name: Type, size { field: offset }`. A field that is not listed does not compile. The one field of a tuple struct,
/// 0, is `count` in C.
macro_rules! laid_out {
    ($($name:ident: $type:ident, $size:literal { $($field:tt: $offset:literal),* })*) => {
        $(const _: () = {
            let _all_fields = |$type { $($field: _),* }: $type| ();
            assert!(size_of::<$type>() == $size);
            $(assert!(offset_of!($type, $field) == $offset);)*
        };)*

        /// What host/layout/layout.c prints of the header, of the declarations here.
        #[cfg(test)]
        fn lines() -> Vec<String> {
            let mut lines = Vec::new();
            $(
                lines.push(format!("{} {}", stringify!($name), size_of::<$type>()));
                $({
                    let size = tests::size_behind(|place: &$type| &place.$field);
                    lines.push(tests::line([stringify!($name), stringify!($field)], offset_of!($type, $field), size));
                })*
            )*
            lines
        }
    };
}

laid_out! {
    ticks: Ticks, 8 { 0: 0 }
    pulses: Pulses, 1 { 0: 0 }
    bits: Bits, 1 { 0: 0 }
    format: Format, 3 { width: 0, parity: 1, odd: 2 }
    setting: Setting, 4 { format: 0, sixteen: 3 }
    sampler: Sampler, 10 { phase: 0, high: 1, left: 2, setting: 3, taken: 7, value: 8 }
    marks: Marks, 3 { broken: 0, framing: 1, parity: 2 }
    character: Character, 4 { byte: 0, marks: 1 }
    queue: Queue, 17 { count: 0, first: 1, second: 5, third: 9, waiting: 13 }
    receiver: Receiver, 34 { sampler: 0, queue: 10, overrun: 27, sums: 28, change: 31, last: 32 }
    shifter: Shifter, 6 { frame: 0, sixteen: 2, length: 3, sent: 4 }
    transmitter: Transmitter, 14 { enabled: 0, full: 1, holding: 2, phase: 3, shifter: 4, left: 10, asked: 11, txd: 12 }
    phases: Phases, 24 { receiver: 0, transmitter: 8, sixteenths: 16 }
    side: Side, 48 { mr1: 0, mr2: 1, moved: 2, csr: 3, enabled: 4, echo: 5, transmitter: 6, phases: 24 }
    timer: Timer, 24 { preload: 0, count: 2, running: 4, output: 5, ready: 6, ticks: 8, edges: 16 }
    inputs: Inputs, 2 { levels: 0, changes: 1 }
    outputs: Outputs, 2 { bits: 0, opcr: 1 }
    front: Front, 128 { a: 0, b: 48, timer: 96, inputs: 120, outputs: 122, acr: 124, imr: 125, ivr: 126 }
    device: Device, 200 { front: 0, a: 128, b: 162 }
    event: EventRecord, 3 { kind: 0, reg: 1, byte: 2 }
    seen: Seen, 7 { number: 0, data: 1, fresh: 2, irq: 3, txda: 4, txdb: 5, op: 6 }
    frame_answer: FrameAnswer, 2 { number: 0, length: 1 }
    polled: Polled, 16 { number: 0, count: 8 }
    ran: Ran, 12 { number: 0, ticks: 4, irq: 8, txda: 9, txdb: 10, op: 11 }
    dump_answer: DumpAnswer, 16 { number: 0, length: 8 }
    capture_answer: CaptureAnswer, 16 { number: 0, length: 8 }
}

#[cfg(test)]
mod tests {
    use super::lines;
    use std::mem::size_of;

    const RECORD: &str = include_str!("../../layout/record");

    pub(super) fn size_behind<T, F>(_field: fn(&T) -> &F) -> usize {
        size_of::<F>()
    }

    pub(super) fn line([name, field]: [&str; 2], offset: usize, size: usize) -> String {
        let field = if field == "0" { "count" } else { field };
        format!("{name}.{field} {offset} {size}")
    }

    #[test]
    fn each_field_is_where_the_header_has_it() {
        let (mine, header): (Vec<String>, Vec<&str>) = (lines(), RECORD.lines().collect());
        for (mine, header) in mine.iter().zip(&header) {
            assert_eq!(mine, header, "struct.field offset size, here and in C (host/layout/record)");
        }
        assert_eq!(mine.len(), header.len());
    }
}
