//! Which devices are sound, written from docs/SOUND.md and from nothing else: the range of each field, the
//! registers, and the rule on the waiting place.

use duart::device::{Device, Phases, Receiver, Sampler, Side, Timer, Transmitter};

pub fn is_sound(device: &Device) -> bool {
    let front = &device.front;
    is_sound_side(&front.a)
        && is_sound_side(&front.b)
        && is_sound_timer(&front.timer)
        && front.inputs.changes <= 15
        && is_accepted_opcr(front.outputs.opcr)
        && is_sound_receiver(&device.a)
        && is_sound_receiver(&device.b)
}

/// MR1: bit 7 clear, and bits 4-3 not 11.
pub fn is_accepted_mr1(mr1: u8) -> bool {
    mr1 & 0x80 == 0 && mr1 & 0x18 != 0x18
}

/// MR2: any value with bit 5 clear.
pub fn is_accepted_mr2(mr2: u8) -> bool {
    mr2 & 0x20 == 0
}

/// OPCR: bits 1-0 clear, and bit 3 clear.
pub fn is_accepted_opcr(opcr: u8) -> bool {
    opcr & 0x0b == 0
}

fn is_sound_side(side: &Side) -> bool {
    is_accepted_mr1(side.mr1)
        && is_accepted_mr2(side.mr2)
        && is_sound_transmitter(&side.transmitter)
        && are_sound_phases(&side.phases)
}

fn is_sound_transmitter(transmitter: &Transmitter) -> bool {
    transmitter.phase <= 3
        && transmitter.shifter.length.0 <= 192
        && transmitter.shifter.sent.0 <= 192
        && transmitter.left.0 <= 15
}

/// 0 to 4607 ticks: the longest period is 4608.
fn are_sound_phases(phases: &Phases) -> bool {
    phases.receiver.0 <= 4607 && phases.transmitter.0 <= 4607 && phases.sixteenths.0 <= 15
}

fn is_sound_timer(timer: &Timer) -> bool {
    timer.ticks.0 <= 15 && timer.edges.0 <= 15
}

/// `count` is 4 only while `phase` is not 2.
fn is_sound_receiver(receiver: &Receiver) -> bool {
    let confirmed_start = receiver.sampler.phase == 2;
    is_sound_sampler(&receiver.sampler)
        && receiver.queue.count <= 4
        && !(receiver.queue.count == 4 && confirmed_start)
}

fn is_sound_sampler(sampler: &Sampler) -> bool {
    let format = sampler.setting.format;
    sampler.phase <= 4
        && sampler.left.0 <= 15
        && (5..=8).contains(&format.width.0)
        && format.parity <= 2
        && sampler.taken.0 <= 9
        && sampler.value <= 511
}

#[cfg(test)]
mod tests {
    use super::is_sound;
    use duart::Duart;

    #[test]
    fn a_fresh_device_is_sound() {
        assert!(is_sound(Duart::fresh().device()));
    }

    #[test]
    fn of_mr2_bit_5_alone_is_not() {
        let mut device = *Duart::fresh().device();
        for mr2 in 0..=255 {
            device.front.a.mr2 = mr2;
            assert_eq!(is_sound(&device), (mr2 >> 5) & 1 == 0, "MR2 {mr2}");
        }
    }

    #[test]
    fn four_held_and_a_confirmed_start_are_not() {
        let mut device = *Duart::fresh().device();
        device.b.queue.count = 4;
        assert!(is_sound(&device));
        device.b.sampler.phase = 2;
        assert!(!is_sound(&device));
    }
}
