//! What the scripts reached of order 2: mode changes by what they meet, what goes round in local loopback, and the echo.

use crate::coverage::{newest, Coverage, PIN_EVENT, READ, TICK, WRITE};
use crate::modes::{echoes, mode_of, txd_of};
use crate::moment::Moment;
use crate::script::Channel;
use crate::sights::{Sight, MODE_WRITES};
use duart::device::{Device, Front};
use duart::{mode, EventRecord, Seen};

/// One of four sights, for the codes 0 to 12, 13, 14 and 15.
fn by_code(code: u8, sights: [Sight; 4]) -> Sight {
    sights[usize::from(code.saturating_sub(12))]
}

const LOOPED: [Sight; 4] = [
    Sight::LoopedOnTicks,
    Sight::LoopedOnTimer,
    Sight::LoopedOnPin16X,
    Sight::LoopedOnPin1X,
];

const CHANGED: [Sight; 4] = [
    Sight::ChangeOnTicks,
    Sight::ChangeOnTimer,
    Sight::ChangeOnPin16X,
    Sight::ChangeOnPin1X,
];

impl Coverage {
    pub fn see_modes(&mut self, before: &Device, record: EventRecord, seen: Seen, after: &Device) {
        for channel in Channel::BOTH {
            let moment = Moment::of(before, after, channel);
            match record.kind {
                WRITE => self.see_channel_write(moment, record, seen),
                READ if record.reg == channel.register(1) => self.see_status_read(moment),
                PIN_EVENT | TICK => {
                    self.see_loop(moment);
                    self.see_echo(moment);
                    self.see_count(moment, &before.front, &after.front);
                }
                _ => {}
            }
        }
    }

    fn see_channel_write(&mut self, moment: Moment, record: EventRecord, seen: Seen) {
        let registers = [0, 2, 3].map(|register| moment.channel.register(register));
        let accepted = seen.number == 0;
        if record.reg == registers[0] && moment.was.moved {
            self.see_mr2_write(moment, record.byte, seen);
        } else if record.reg == registers[1] && accepted {
            self.see_command(moment, record.byte);
        } else if record.reg == registers[2] && accepted {
            let held = echoes(moment.was) && moment.was.transmitter.enabled;
            self.note_if(held, Sight::EchoWrites);
        }
    }

    // ------------------------------------------------------------ mode changes

    fn see_mr2_write(&mut self, moment: Moment, byte: u8, seen: Seen) {
        let under_way = moment.is_sending() || moment.is_receiving();
        let same = (byte ^ moment.was.mr2) & 0xc0 == 0;
        if seen.number != 0 {
            self.note_if(!same && under_way, Sight::RefusedModeUnderWay);
            return;
        }
        let modes = [moment.was.mr2, byte].map(|mr2| usize::from(mr2 >> 6));
        self.note(MODE_WRITES[modes[0]][modes[1]]);
        if same {
            self.note_if(under_way, Sight::SameModeUnderWay);
        } else {
            self.see_drop_of_sent(moment);
            self.see_drop_of_received(moment);
            self.note_if(moment.is_within_period(), Sight::ChangeWithinPeriod);
            self.note_if(!txd_of(moment.was) && txd_of(moment.is), Sight::ChangeRaisesTxd);
            self.note_if(self.irq && !seen.irq, Sight::ChangeWithdrawsIrq);
        }
    }

    fn see_drop_of_sent(&mut self, moment: Moment) {
        let transmitter = &moment.was.transmitter;
        match (transmitter.phase, transmitter.shifter.sixteen) {
            (1, true) => self.note(Sight::ChangeInFrameAt16X),
            (1, false) => self.note(Sight::ChangeInFrameAt1X),
            (2, _) => self.note(Sight::ChangeInBreak),
            (3, _) => self.note(Sight::ChangeInHighBit),
            _ => {}
        }
        self.note_if(transmitter.full, Sight::ChangeWithHolding);
        self.note_if(transmitter.asked, Sight::ChangeWithBreakAsked);
        if moment.is_sending() {
            self.note(by_code(moment.transmitter_code(), CHANGED));
        }
    }

    fn see_drop_of_received(&mut self, moment: Moment) {
        self.note_if(!moment.was.enabled, Sight::ChangeWhileDisabled);
        self.note_if(moment.held.queue.count == 4, Sight::ChangeWithWaiting);
        if !moment.is_receiving() {
            return;
        }
        let sampler = &moment.held.sampler;
        self.note(by_code(moment.receiver_code(), CHANGED));
        self.note(match (sampler.phase, sampler.setting.sixteen) {
            (1, _) => Sight::ChangeBeforeConfirmed,
            (2, true) => Sight::ChangeInCharacterAt16X,
            (2, false) => Sight::ChangeInCharacterAt1X,
            (3, _) => Sight::ChangeAfterLowStop,
            _ => Sight::ChangeInBreakReceived,
        });
    }

    // ------------------------------------------------------------ local loopback

    fn see_loop(&mut self, moment: Moment) {
        if mode_of(moment.was) != mode::LOCAL_LOOPBACK {
            return;
        }
        let (was, held) = (moment.was, moment.held);
        if moment.has_arrival() {
            self.note(by_code(moment.transmitter_code(), LOOPED));
            self.note_if(was.csr >> 4 != was.csr & 15, Sight::LoopedWithOtherCode);
            self.note_if(!moment.rxd_is_high(), Sight::LoopedWithRxdLow);
            self.note_if(newest(moment.holds).marks.broken, Sight::LoopedBreaks);
        }
        let break_ends = held.sampler.phase == 4 && moment.holds.sampler.phase == 0;
        self.note_if(break_ends, Sight::LoopedBreakEnds);
        let overrun = held.queue.count == 4 && moment.holds.queue.count == 3;
        self.note_if(overrun, Sight::LoopedOverruns);
        self.note_if(moment.has_both_edges(), Sight::LoopedOnBothEdges);
        self.note_if(moment.rxd_moves(), Sight::LoopedRxdMoves);
        self.see_looped_start(moment);
    }

    /// A start that the receiver does not hear, as it has sampled no high yet; and one that CTS does not let begin.
    fn see_looped_start(&mut self, moment: Moment) {
        let (sampler, transmitter) = (&moment.held.sampler, &moment.was.transmitter);
        let starts = transmitter.phase != 1 && moment.is.transmitter.phase == 1;
        let unheard = moment.was.enabled && sampler.phase == 0 && !sampler.high;
        self.note_if(starts && unheard, Sight::LoopedStartsUnheard);
        let waits = transmitter.enabled && transmitter.full && transmitter.phase == 0;
        let cts = moment.was.mr2 & 0x10 != 0 && moment.cts_is_high();
        let pulse = moment.transmitter_code() >= 14 && moment.falls();
        self.note_if(waits && cts && pulse, Sight::LoopedCtsWaits);
    }

    // ------------------------------------------------------------ the echo modes

    fn see_echo(&mut self, moment: Moment) {
        let lowered = moment.was.echo && !moment.is.echo;
        match mode_of(moment.was) {
            mode::AUTOMATIC_ECHO => {
                self.note_if(lowered, Sight::EchoedLows);
                self.note_if(moment.has_arrival(), Sight::EchoedCharacters);
            }
            mode::REMOTE_LOOPBACK => {
                let echoed = moment.was.echo != moment.is.echo;
                self.note_if(lowered, Sight::RemoteLows);
                self.note_if(echoed && moment.held.queue.count > 0, Sight::RemotePulsesReady);
            }
            _ => return,
        }
        self.note_if(moment.has_both_edges(), Sight::EchoedOnBothEdges);
    }

    /// The transmitter's pulses go on and count for the 1X clock: the counter on TxCA or TxCB 1X.
    fn see_count(&mut self, moment: Moment, before: &Front, after: &Front) {
        let own = if moment.channel == Channel::A { 1 } else { 2 };
        let counted = (before.acr >> 4) & 7 == own && before.timer.count != after.timer.count;
        self.note_if(echoes(moment.was) && counted, Sight::EchoCounts);
    }

    fn see_status_read(&mut self, moment: Moment) {
        let transmitter = &moment.was.transmitter;
        let ready = transmitter.enabled && !transmitter.full;
        self.note_if(echoes(moment.was) && ready, Sight::EchoReadsTxRdy0);
    }

    fn see_command(&mut self, moment: Moment, byte: u8) {
        if mode_of(moment.was) == mode::LOCAL_LOOPBACK {
            let raised = !moment.was.transmitter.txd && moment.is.transmitter.txd;
            self.note_if(raised && (byte >> 4) & 7 == 3, Sight::LoopedLowsReset);
        }
        if !echoes(moment.was) {
            return;
        }
        let asked = !moment.was.transmitter.asked && moment.is.transmitter.asked;
        self.note_if(asked, Sight::EchoBreaksAsked);
        if txd_of(moment.was) {
            return;
        }
        self.note(match ((byte >> 4) & 7, byte & 3) {
            _ if !txd_of(moment.is) => Sight::EchoLeftByCommands,
            (2, 1) => Sight::EchoRaisedByResetAndEnable,
            (2, _) => Sight::EchoRaisedByReset,
            (3, _) => Sight::EchoRaisedByTransmitter,
            _ => Sight::EchoRaisedByDisable,
        });
    }
}

#[cfg(test)]
mod tests {
    use crate::coverage::Coverage;
    use crate::sights::{Sight, SIGHTS};
    use duart::device::Device;
    use duart::{mode, Duart, Event};

    /// What is seen of an event on channel A: enabled, the pointer at MR2, in a mode and as `alter` has it.
    fn sights_of(mode: u8, event: Event, alter: fn(&mut Device)) -> Vec<Sight> {
        let mut device = *Duart::fresh().device();
        device.front.a.mr2 = mode;
        device.front.a.moved = true;
        device.front.a.enabled = true;
        device.front.a.transmitter.enabled = true;
        device.front.a.csr = 0xff;
        alter(&mut device);
        let mut chip = Duart::from_device(device);
        let mut coverage = Coverage::default();
        let seen = chip.step_raw(event);
        coverage.see(&device, event.into(), seen, chip.device());
        let counted = SIGHTS[Sight::NormalAgain as usize..].iter();
        let counted = counted.filter(|(sight, _)| coverage.of(*sight) > 0);
        counted.map(|(sight, _)| *sight).collect()
    }

    #[test]
    fn a_mode_change_is_counted_by_what_it_meets() {
        let change = Event::Write(0, mode::LOCAL_LOOPBACK);
        let sights = sights_of(mode::NORMAL, change, |device| {
            device.front.a.transmitter.phase = 2;
            device.front.a.transmitter.txd = false;
            device.a.queue.count = 4;
        });
        let met = [
            Sight::NormalToLocal,
            Sight::ChangeInBreak,
            Sight::ChangeWithWaiting,
            Sight::ChangeOnPin1X,
            Sight::ChangeRaisesTxd,
        ];
        assert_eq!(sights, met);
        let again = sights_of(mode::LOCAL_LOOPBACK, change, |device| {
            device.front.a.transmitter.phase = 1;
        });
        assert_eq!(again, [Sight::LocalAgain, Sight::SameModeUnderWay]);
        let at_mr1 = sights_of(mode::NORMAL, change, |device| device.front.a.moved = false);
        assert_eq!(at_mr1, []);
    }

    #[test]
    fn an_echo_is_counted_by_what_raises_it() {
        let low = |device: &mut Device| device.front.a.echo = false;
        let echo = mode::AUTOMATIC_ECHO;
        assert_eq!(sights_of(echo, Event::Write(2, 0x21), low), [Sight::EchoRaisedByResetAndEnable]);
        assert_eq!(sights_of(echo, Event::Write(2, 0x08), low), [Sight::EchoLeftByCommands]);
        assert_eq!(sights_of(mode::NORMAL, Event::Write(2, 0x21), low), []);
        let ip4_is_low = |device: &mut Device| device.front.inputs.levels = 0xef;
        let remote = sights_of(mode::REMOTE_LOOPBACK, Event::Pins(0xbf), ip4_is_low);
        assert_eq!(remote, [Sight::RemoteLows]);
    }
}
