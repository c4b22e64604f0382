//! Order 4: "a start that takes the output from low to high does set ISR bit 3", in a timer mode; document 01: a change of
//! ACR 6-4 is "setting no bit". What the scripts reached of it, and what is asked of any drawn device.

use crate::coverage::{Coverage, READ, WRITE};
use crate::sights::Sight;
use duart::device::{Device, Front};
use duart::{EventRecord, Seen};

fn in_timer_mode(front: &Front) -> bool {
    front.acr & 0x40 != 0
}

fn on_code_13(front: &Front) -> bool {
    let codes = [front.a.csr, front.b.csr].map(|csr| [csr & 15, csr >> 4]);
    codes.iter().flatten().any(|code| *code == 13)
}

pub fn is_start(event: EventRecord) -> bool {
    event.kind == READ && event.reg == 14
}

/// ACR 6-4 get another value.
fn is_change(front: &Front, event: EventRecord) -> bool {
    event.kind == WRITE && event.reg == 4 && (event.byte ^ front.acr) & 0x70 != 0
}

/// A start of a timer whose output is low, and the bit not set; a start of a counter whose output is low, which no script
/// reaches.
pub fn rises(device: &Device, event: EventRecord) -> bool {
    let timer = &device.front.timer;
    is_start(event) && in_timer_mode(&device.front) && !timer.output && !timer.ready
}

pub fn is_low_counter_start(device: &Device, event: EventRecord) -> bool {
    let timer = &device.front.timer;
    is_start(event) && !in_timer_mode(&device.front) && !timer.output && !timer.ready
}

/// Of a sound device: which events of these set ISR bit 3, and that a start leaves the divided clocks where they are.
pub fn fault(device: &Device, event: EventRecord, after: &Device) -> Option<&'static str> {
    let (was, is) = (&device.front.timer, &after.front.timer);
    if is_start(event) && is.ready != (was.ready || in_timer_mode(&device.front) && !was.output) {
        Some("a start sets ISR bit 3 where it should not, or does not where it should")
    } else if is_start(event) && (after.front.a, after.front.b, after.a, after.b) != (device.front.a, device.front.b, device.a, device.b) {
        Some("a start is a pulse of a channel's clock")
    } else if is_change(&device.front, event) && is.ready != was.ready {
        Some("a change of ACR 6-4 sets or clears ISR bit 3")
    } else {
        None
    }
}

impl Coverage {
    pub fn see_starts(&mut self, before: &Device, record: EventRecord, seen: Seen) {
        let (front, timer) = (&before.front, &before.front.timer);
        if is_start(record) && in_timer_mode(front) {
            self.note(match (timer.output, timer.ready) {
                (false, false) => Sight::StartsRising,
                (false, true) => Sight::StartsRisingBitSet,
                (true, false) => Sight::StartsHigh,
                (true, true) => Sight::StartsHighBitSet,
            });
            self.note_if(!timer.output && on_code_13(front), Sight::StartsRisingOnCode13);
            self.note_if(!timer.output && seen.irq && !self.irq, Sight::StartsAssertingIrq);
        }
        self.note_if(is_start(record) && !in_timer_mode(front), Sight::StartsOfCounter);
        self.note_if(is_change(front, record) && !timer.output, Sight::ModeChangesFromLow);
    }
}
