//! What the scripts reached: a run in which no character was ever lost says nothing about overruns, so a
//! whole run fails where one of these counts is zero.

use crate::sights::{Sight, SIGHTS};
use duart::device::{Character, Device, Receiver, Timer, Transmitter};
use duart::{EventRecord, Seen};

const CHIP_RESET: u8 = 0;
pub const READ: u8 = 1;
pub const WRITE: u8 = 2;
const ACKNOWLEDGE: u8 = 3;
pub const PIN_EVENT: u8 = 4;
pub const TICK: u8 = 5;

pub struct Coverage {
    counts: [u64; SIGHTS.len()],
    /// IRQ after the last event.
    pub irq: bool,
    /// For A and B: a receiver reset dropped characters, and none has come since.
    dropped: [bool; 2],
}

impl Default for Coverage {
    fn default() -> Coverage {
        Coverage {
            counts: [0; SIGHTS.len()],
            irq: false,
            dropped: [false; 2],
        }
    }
}

impl Coverage {
    pub fn events(&self) -> u64 {
        self.counts[..=Sight::UnknownKinds as usize].iter().sum()
    }

    pub fn missing(&self) -> Vec<&'static str> {
        let none = SIGHTS.iter().filter(|(sight, _)| self.of(*sight) == 0);
        none.map(|(_, name)| *name).collect()
    }

    pub fn print(&self) {
        for (sight, name) in SIGHTS {
            println!("{:>10} {name}", self.of(sight));
        }
    }

    pub fn of(&self, sight: Sight) -> u64 {
        self.counts[sight as usize]
    }

    pub fn note(&mut self, sight: Sight) {
        self.counts[sight as usize] += 1;
    }

    pub fn note_if(&mut self, so: bool, sight: Sight) {
        self.counts[sight as usize] += u64::from(so);
    }

    /// A new script begins: a fresh chip does not assert IRQ, and nothing was dropped.
    pub fn begin(&mut self) {
        self.irq = false;
        self.dropped = [false; 2];
    }

    /// One event: what it was, and what it did to the chip.
    pub fn see(&mut self, before: &Device, record: EventRecord, seen: Seen, after: &Device) {
        self.see_event(before, record, seen);
        self.see_drops(before, record, after);
        self.see_modes(before, record, seen, after);
        self.see_starts(before, record, seen);
        self.note_if(seen.irq && !self.irq, Sight::IrqAssertions);
        self.irq = seen.irq;
        if matches!(record.kind, PIN_EVENT | TICK) {
            let timer_mode = (before.front.acr >> 6) & 1 == 1;
            self.see_timer(timer_mode, &before.front.timer, &after.front.timer);
            self.see_transmitter(&before.front.a.transmitter, &after.front.a.transmitter);
            self.see_transmitter(&before.front.b.transmitter, &after.front.b.transmitter);
            self.see_receiver(&before.a, &after.a);
            self.see_receiver(&before.b, &after.b);
        }
    }

    fn see_event(&mut self, before: &Device, record: EventRecord, seen: Seen) {
        let (kind, _) = SIGHTS[usize::from(record.kind.min(6))];
        self.note(kind);
        match seen.number {
            2 => self.note(Sight::RefusedBy2),
            3 => self.note(Sight::RefusedBy3),
            4 => self.note(Sight::RefusedBy4),
            5 => self.note(Sight::RefusedBy5),
            6 => self.note(Sight::RefusedBy6),
            _ => {}
        }
        match record.kind {
            READ => self.see_read(before, record.reg, seen),
            ACKNOWLEDGE => self.note_if(seen.number == 0, Sight::VectorsRead),
            _ => {}
        }
    }

    /// No other write than a receiver reset empties a queue.
    fn see_drops(&mut self, before: &Device, record: EventRecord, after: &Device) {
        let counts = |device: &Device| [device.a.queue.count, device.b.queue.count];
        for (place, (held, left)) in counts(before).into_iter().zip(counts(after)).enumerate() {
            let dropped = record.kind == WRITE && held > 0;
            let kept = record.kind != CHIP_RESET && self.dropped[place];
            self.dropped[place] = left == 0 && (dropped || kept);
        }
    }

    fn see_read(&mut self, before: &Device, register: u8, seen: Seen) {
        let held = [&before.a, &before.b].map(|receiver| receiver.queue.count > 0);
        let refused = seen.number != 0;
        match register {
            3 => self.see_buffer_read(before, 0, seen),
            11 => self.see_buffer_read(before, 1, seen),
            1 => self.note_if(held[0], Sight::StatusReadsReady),
            9 => self.note_if(held[1], Sight::StatusReadsReady),
            _ => self.note_if(refused && held != [false; 2], Sight::RefusedReadsReady),
        }
    }

    /// What a read could be fresh by, and is not: order 1 goes by RxRDY of its own channel and by nothing else. A's place
    /// is 0 and B's is 1.
    fn see_buffer_read(&mut self, before: &Device, place: usize, seen: Seen) {
        let side = [&before.front.a, &before.front.b][place];
        let receivers = [&before.a, &before.b];
        let (receiver, other) = (receivers[place], receivers[1 - place]);
        if seen.fresh {
            let isr_bit_clear = (side.mr1 >> 6) & 1 == 1 && receiver.queue.count < 3;
            self.note(Sight::FreshReads);
            self.note_if(seen.data == receiver.last, Sight::FreshLastByte);
            self.note_if(isr_bit_clear, Sight::FreshUnderFfull);
            self.note_if(!side.enabled, Sight::FreshWhileDisabled);
        } else {
            self.note(Sight::StaleReads);
            self.note_if(other.queue.count > 0, Sight::StaleOtherReady);
            self.note_if(self.dropped[place], Sight::StaleAfterDrops);
        }
    }

    /// The timer reloads at its terminal count, so there the output tells.
    fn see_timer(&mut self, timer_mode: bool, before: &Timer, after: &Timer) {
        if timer_mode {
            self.note_if(before.output != after.output, Sight::TimerTerminals);
        } else {
            let reached_0 = before.count == 1 && after.count == 0;
            self.note_if(reached_0, Sight::CounterTerminals);
        }
    }

    fn see_transmitter(&mut self, before: &Transmitter, after: &Transmitter) {
        let shifter = after.shifter;
        if before.shifter.sent != shifter.sent && shifter.sent == shifter.length {
            self.note_if(shifter.sixteen, Sight::FramesSentAt16X);
            self.note_if(!shifter.sixteen, Sight::FramesSentAt1X);
        }
        let phases = (before.phase, after.phase);
        self.note_if(phases.0 != 2 && phases.1 == 2, Sight::BreaksSent);
        self.note_if(phases == (3, 0), Sight::HighBitsAfterBreaks);
    }

    fn see_receiver(&mut self, before: &Receiver, after: &Receiver) {
        match (before.queue.count, after.queue.count) {
            (held, more) if more > held => self.see_character(newest(after)),
            (4, 3) => self.note(Sight::Overruns),
            _ => {}
        }
        match (before.sampler.phase, after.sampler.phase) {
            (1, 0) => self.note(Sight::FalseStarts),
            (3, 1 | 2) => self.note(Sight::NewStartsAfterLowStops),
            (4, 0) => self.note(Sight::BreakEndsReceived),
            _ => {}
        }
    }

    fn see_character(&mut self, character: Character) {
        self.note(Sight::CharactersReceived);
        self.note_if(character.marks.broken, Sight::WithBreakMark);
        self.note_if(character.marks.framing, Sight::WithFramingMark);
        self.note_if(character.marks.parity, Sight::WithParityMark);
    }
}

/// The character that arrived last: the one that waits counts as the fourth.
pub fn newest(receiver: &Receiver) -> Character {
    let queue = &receiver.queue;
    match queue.count {
        0 | 1 => queue.first,
        2 => queue.second,
        3 => queue.third,
        _ => queue.waiting,
    }
}

#[cfg(test)]
mod tests {
    use super::{Coverage, Sight, SIGHTS};
    use duart::{Duart, Event};

    #[test]
    fn a_refused_read_is_counted_as_such_and_all_else_is_missing() {
        let mut chip = Duart::fresh();
        let before = *chip.device();
        let seen = chip.step_raw(Event::Read(2));
        let mut coverage = Coverage::default();
        coverage.see(&before, Event::Read(2).into(), seen, chip.device());
        assert_eq!(coverage.events(), 1);
        assert_eq!(coverage.missing().len(), SIGHTS.len() - 2);
    }

    #[test]
    fn reads_are_counted_by_what_makes_them_fresh_or_stale() {
        let mut device = *Duart::fresh().device();
        device.a.queue.count = 2;
        device.front.a.mr1 = 0x53;
        let mut chip = Duart::from_device(device);
        let mut coverage = Coverage::default();
        let script = [
            Event::Read(3),
            Event::Read(11),
            Event::Read(1),
            Event::Read(2),
            Event::Write(2, 0x20),
            Event::Read(3),
        ];
        for event in script {
            let before = *chip.device();
            let seen = chip.step_raw(event);
            coverage.see(&before, event.into(), seen, chip.device());
        }
        let counted = &SIGHTS[Sight::FreshReads as usize..=Sight::StatusReadsReady as usize];
        let counts: Vec<u64> = counted
            .iter()
            .map(|(sight, _)| coverage.of(*sight))
            .collect();
        assert_eq!(counts, [1, 1, 1, 1, 2, 1, 1, 1, 1]);
    }
}
