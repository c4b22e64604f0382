//! Order 6: the list that is dumped, both channels sending and receiving at 9,600 bits a second.

use crate::chips::Chip;
use crate::loads::{BIT_9600, FRAME_9600};
use model::Event;

/// The events of a frame: its ticks, a level of both RxD for each of its ten bits, and what a program does with each
/// character, two reads and two writes.
pub const FRAME_EVENTS: u32 = FRAME_9600 + 10 + 4;

/// A list, and space for its text.
pub struct Work<C: Chip> {
    list: C::List,
    space: Vec<u8>,
}

impl<C: Chip> Work<C> {
    pub fn none() -> Work<C> {
        Work { list: C::list(&[]), space: Vec::new() }
    }

    /// So many events, made before anything is measured. Two wires change in a bit, at the most.
    pub fn of(events: u32) -> Work<C> {
        let list: Vec<Event> = (0..).flat_map(frame).take(events as usize).collect();
        Work { list: C::list(&list), space: vec![0; 1_000 + list.len() / 4] }
    }

    /// The first events dumped: the length of the text, and the sum of its bytes.
    pub fn dump(&mut self, chip: &C, events: u32) -> u64 {
        let length = chip.dump(&self.list, events as usize, &mut self.space);
        let bytes: u64 = self.space[..length].iter().map(|byte| u64::from(*byte)).sum();
        length as u64 + bytes
    }
}

/// Someone sends into both RxD, a character a frame, and the transmitters are given the next.
pub fn frame(number: u32) -> Vec<Event> {
    let byte = number as u8;
    let mut events = vec![Event::Read(3), Event::Read(11), Event::Write(3, byte), Event::Write(11, !byte)];
    let levels = (u32::from(byte) << 1) | 0x200;
    for bit in 0..10 {
        let high = (levels >> bit) & 1 == 1;
        events.push(Event::Pins(if high { 0xff } else { 0x3f }));
        events.extend([Event::Tick; BIT_9600 as usize]);
    }
    events
}

#[cfg(test)]
mod tests {
    use super::*;
    use crate::loads::Load;

    #[test]
    fn a_frame_has_so_many_events() {
        assert_eq!(frame(7).len() as u32, FRAME_EVENTS);
    }

    /// A character has come on each channel in each frame and nothing is lost, and each transmitter sends its own.
    #[test]
    fn both_channels_are_busy() {
        let mut chip = Load::Dump.ready::<model::Chip>(0).chip;
        let mut reads = Vec::new();
        for event in (0..6).flat_map(frame) {
            let (_, _, data) = Chip::step(&mut chip, event);
            if let Event::Read(register) = event {
                reads.push((register, data));
            }
        }
        let wanted: Vec<(u8, u8)> = (0..5).flat_map(|byte| [(3, byte), (11, byte)]).collect();
        assert_eq!(reads[2..], wanted);
        let status = [1, 9].map(|register| Chip::step(&mut chip, Event::Read(register)).2);
        assert_eq!(status.map(|status| status & 0xf0), [0; 2]);
    }
}
