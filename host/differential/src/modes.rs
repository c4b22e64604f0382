//! What order 2 asks of every sound device, of those too that no script reaches: a frame in the shifter in an echo mode, a
//! character half put together in remote loopback. Sentences in double quotes are the order's.

use crate::script::Channel;
use duart::device::{Device, Receiver, Side};
use duart::{mode, EventRecord, Seen};

const READ: u8 = 1;
const WRITE: u8 = 2;
const PINS: u8 = 4;
const TICK: u8 = 5;

/// MR2 bits 7-6.
pub fn mode_of(side: &Side) -> u8 {
    side.mr2 & 0xc0
}

/// "Remote loopback: the same echo"
pub fn echoes(side: &Side) -> bool {
    matches!(mode_of(side), mode::AUTOMATIC_ECHO | mode::REMOTE_LOOPBACK)
}

/// The level of the pin, worked out from mode and enable: "TxD stays high" in local loopback; what is echoed, "high while
/// disabled", in the echo modes; in normal mode the transmitter's own.
pub fn txd_of(side: &Side) -> bool {
    match mode_of(side) {
        mode::NORMAL => side.transmitter.txd,
        mode::LOCAL_LOOPBACK => true,
        _ => side.echo || !side.enabled,
    }
}

pub fn side_of(device: &Device, channel: Channel) -> &Side {
    match channel {
        Channel::A => &device.front.a,
        Channel::B => &device.front.b,
    }
}

pub fn receiver_of(device: &Device, channel: Channel) -> &Receiver {
    match channel {
        Channel::A => &device.a,
        Channel::B => &device.b,
    }
}

/// The channel whose bits 7-6 an accepted event changes, if it does: the same two bits again change nothing.
pub fn mode_changed(device: &Device, event: EventRecord) -> Option<Channel> {
    let written = |channel: &Channel| {
        let side = side_of(device, *channel);
        let at_mr2 = event.kind == WRITE && event.reg == channel.register(0) && side.moved;
        at_mr2 && (event.byte ^ side.mr2) & 0xc0 != 0
    };
    Channel::BOTH.into_iter().find(written)
}

/// What is wrong with an answer and the device after it, of a sound device.
pub fn fault(device: &Device, event: EventRecord, seen: Seen, after: &Device) -> Option<&'static str> {
    if (seen.txda, seen.txdb) != (txd_of(&after.front.a), txd_of(&after.front.b)) {
        return Some("TxD is not what mode and enable make of the device");
    }
    if seen.number != 0 {
        return None;
    }
    let mode_change = mode_changed(device, event).and_then(|channel| fault_of_change(device, event, after, channel));
    let of_channel = |channel: &Channel| fault_of_echo(device, event, seen, after, *channel);
    mode_change.or_else(|| Channel::BOTH.iter().find_map(of_channel))
}

/// "A mode change drops what is being sent (a break too; the holding place stays) or put together, leaves an enabled receiver
/// as just enabled, and holds TxD high until the next pulse."
fn fault_of_change(device: &Device, event: EventRecord, after: &Device, channel: Channel) -> Option<&'static str> {
    let side = side_of(after, channel);
    let sampler = &receiver_of(after, channel).sampler;
    if side.transmitter.phase != 0 || !side.transmitter.txd {
        Some("a mode change, and something is still being sent")
    } else if !txd_of(side) {
        Some("a mode change, and TxD is not high")
    } else if side.enabled && (sampler.phase != 0 || sampler.high) {
        Some("a mode change, and the receiver is not as just enabled")
    } else if *after != with_mode(device, event.byte, after, channel) {
        Some("a mode change, and it altered more than what it drops")
    } else {
        None
    }
}

/// The device with MR2 written, and what a mode change drops as `after` has it: enables, holding place, an asked break, queue,
/// waiting place, marks, phases and all else stay.
fn with_mode(device: &Device, mr2: u8, after: &Device, channel: Channel) -> Device {
    let mut expected = *device;
    let (side, receiver) = match channel {
        Channel::A => (&mut expected.front.a, &mut expected.a),
        Channel::B => (&mut expected.front.b, &mut expected.b),
    };
    let changed = side_of(after, channel);
    side.mr2 = mr2;
    side.echo = changed.echo;
    side.transmitter.phase = changed.transmitter.phase;
    side.transmitter.shifter = changed.transmitter.shifter;
    side.transmitter.left = changed.transmitter.left;
    side.transmitter.txd = changed.transmitter.txd;
    receiver.sampler = receiver_of(after, channel).sampler;
    expected
}

/// The echo modes: "no character or break starts", "TxRDY and TxEMT read 0", "(high while disabled)" and "TxD high" by reset
/// transmitter; in remote loopback "no character is put together".
fn fault_of_echo(device: &Device, event: EventRecord, seen: Seen, after: &Device, channel: Channel) -> Option<&'static str> {
    let (was, is) = (side_of(device, channel), side_of(after, channel));
    if !echoes(was) {
        return None;
    }
    let clocked = matches!(event.kind, PINS | TICK);
    let (access, register) = (event.kind, event.reg);
    let isr_bit = if channel == Channel::A { 0x01 } else { 0x10 };
    if clocked && was.transmitter != is.transmitter {
        Some("an echo mode, and the transmitter went on")
    } else if clocked && mode_of(was) == mode::REMOTE_LOOPBACK && receiver_of(device, channel) != receiver_of(after, channel) {
        Some("remote loopback, and the receiver went on")
    } else if access == READ && register == channel.register(1) && seen.data & 0x0c != 0 {
        Some("an echo mode, and TxRDY or TxEMT of SR is not 0")
    } else if access == READ && register == 5 && seen.data & isr_bit != 0 {
        Some("an echo mode, and TxRDY of ISR is not 0")
    } else if access == WRITE && register == channel.register(2) && raises_echo(event.byte) && !txd_of(is) {
        Some("an echo mode, and a command that raises TxD did not")
    } else {
        None
    }
}

/// Reset receiver and reset transmitter, the same command enabling again too, and disable receiver.
fn raises_echo(command: u8) -> bool {
    matches!((command >> 4) & 7, 2 | 3) || command & 3 == 2
}

#[cfg(test)]
mod tests {
    use super::{fault, mode_changed, raises_echo, txd_of};
    use crate::script::Channel;
    use duart::{mode, Duart, Event};

    #[test]
    fn the_pin_goes_by_mode_and_enable() {
        let mut side = Duart::fresh().device().front.a;
        side.transmitter.txd = false;
        side.echo = false;
        let levels = |side: &duart::device::Side| {
            [mode::NORMAL, mode::AUTOMATIC_ECHO, mode::LOCAL_LOOPBACK, mode::REMOTE_LOOPBACK].map(|mode| {
                let mut moded = *side;
                moded.mr2 = mode | 0x1f;
                txd_of(&moded)
            })
        };
        assert_eq!(levels(&side), [false, true, true, true]);
        side.enabled = true;
        assert_eq!(levels(&side), [false, false, true, false]);
    }

    #[test]
    fn the_same_bits_at_mr2_and_a_write_at_mr1_are_no_change() {
        let mut device = *Duart::fresh().device();
        device.front.b.mr2 = 0x87;
        let changed = |device: &_, byte| mode_changed(device, Event::Write(8, byte).into());
        assert_eq!(changed(&device, 0x07), None);
        device.front.b.moved = true;
        assert_eq!(changed(&device, 0x80), None);
        assert_eq!(changed(&device, 0x07), Some(Channel::B));
    }

    #[test]
    fn commands_raise_the_echo_or_leave_it() {
        for command in [0x02, 0x20, 0x21, 0x30, 0x35, 0xb0, 0x0a] {
            assert!(raises_echo(command), "{command:x}");
        }
        for command in [0x00, 0x01, 0x08, 0x10, 0x40, 0x60, 0x70] {
            assert!(!raises_echo(command), "{command:x}");
        }
    }

    #[test]
    fn what_is_left_of_a_frame_or_a_high_is_a_fault() {
        let mut device = *Duart::fresh().device();
        device.front.a.moved = true;
        device.front.a.enabled = true;
        let event = Event::Write(0, mode::LOCAL_LOOPBACK);
        let mut chip = Duart::from_device(device);
        let seen = chip.step_raw(event);
        let fault_of = |after| fault(&device, event.into(), seen, after);
        assert_eq!(fault_of(chip.device()), None);
        let mut after = *chip.device();
        after.front.a.transmitter.phase = 3;
        assert!(fault_of(&after).is_some());
        let mut after = *chip.device();
        after.a.sampler.high = true;
        assert!(fault_of(&after).is_some());
        let mut after = *chip.device();
        after.front.a.transmitter.full = true;
        assert!(fault_of(&after).is_some());
    }
}
