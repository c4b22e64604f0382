//! Random scripts: each begins with a fresh chip, programs it and then does one thing after another, so that
//! full queues, breaks, low stops and held characters are there when something else happens.

use crate::coverage::Coverage;
use crate::line;
use crate::pair::Difference;
use crate::rates::Rate;
use crate::script::{Channel, Clock, Script, Stepped, Wires};
use duart::{Event, EventRecord};

/// A script of so many events is ended with the act that it is in.
const SCRIPT_EVENTS: usize = 8_000;

/// A script that came to a difference, with its last event.
pub struct Failure {
    pub seed: u64,
    /// All events up to this one, of the scripts before too.
    pub events_in_all: u64,
    pub events: Vec<EventRecord>,
    pub difference: Difference,
}

/// The events of one script in so many are kept, to be gone through again.
const KEPT: u64 = 8;

/// What was run: how many scripts, and the seeds and events of some.
#[derive(Default)]
pub struct Scripts {
    pub count: u64,
    pub kept: Vec<(u64, Vec<EventRecord>)>,
}

/// Scripts of the seeds from `seed` on, until so many events are done.
pub fn run(events: u64, seed: u64, coverage: &mut Coverage) -> Result<Scripts, Box<Failure>> {
    let mut scripts = Scripts::default();
    while coverage.events() < events {
        let seed = seed.wrapping_add(scripts.count);
        let events = run_one(seed, coverage)?;
        if scripts.count % KEPT == 0 {
            scripts.kept.push((seed, events));
        }
        scripts.count += 1;
    }
    Ok(scripts)
}

/// The events of the script of a seed.
fn run_one(seed: u64, coverage: &mut Coverage) -> Result<Vec<EventRecord>, Box<Failure>> {
    let events_before = coverage.events();
    let mut script = Script::with_seed(seed, coverage);
    let ran = script.run(Rate::of_seed(seed));
    let events = script.pair.history().to_vec();
    match ran {
        Ok(()) => Ok(events),
        Err(difference) => Err(Box::new(Failure {
            seed,
            events_in_all: events_before + events.len() as u64,
            events,
            difference,
        })),
    }
}

impl Script<'_> {
    fn run(&mut self, rate: Rate) -> Stepped {
        if self.draws.one_in(64) {
            self.long_count()?;
        }
        self.time_rate(rate)?;
        self.program_all()?;
        while self.pair.history().len() < SCRIPT_EVENTS {
            self.act()?;
        }
        Ok(())
    }

    fn act(&mut self) -> Stepped {
        match self.draws.below(88) {
            0..=11 => self.receive(),
            12..=17 => self.send_over_wires(),
            18..=21 => self.send(),
            22..=25 => self.send_break(),
            26..=29 => self.count(),
            30..=31 => self.program_all(),
            32..=33 => self.move_cts(),
            34..=41 => {
                let channel = self.any_channel();
                self.serve(channel)
            }
            42 => self.chip_reset(),
            43..=45 => {
                let channel = self.any_channel();
                self.poll(channel)
            }
            64..=74 => self.loop_back(),
            75..=83 => self.echo(),
            84..=87 => self.time_mode(),
            _ => self.disturb(),
        }
    }

    /// The pins stay as they are, and usually the chip is programmed anew.
    fn chip_reset(&mut self) -> Stepped {
        self.step(Event::ChipReset)?;
        if self.draws.one_in(4) {
            return Ok(());
        }
        self.program_all()
    }

    // ------------------------------------------------------------ receiving

    /// Someone sends into RxD, at the receiver's own rate, as often as not with nobody reading.
    fn receive(&mut self) -> Stepped {
        let channel = self.any_channel();
        let lines = if self.draws.one_in(4) {
            Channel::A.rxd() | Channel::B.rxd()
        } else {
            channel.rxd()
        };
        self.wires = Wires::default();
        self.enable(channel)?;
        self.drive(lines, true)?;
        self.pulse(channel, Clock::Receiver)?;
        for _ in 0..self.draws.between(1, 6) {
            let mr1 = self.side(channel).mr1;
            for span in line::burst(&mut self.draws, mr1) {
                self.hold(channel, lines, span)?;
            }
            if self.draws.flip() {
                self.look()?;
            }
            if self.draws.one_in(4) {
                self.serve(channel)?;
            }
        }
        if self.draws.one_in(4) {
            self.poll(channel)?;
        }
        Ok(())
    }

    /// A level on the line for its time, with something else in between now and then.
    pub fn hold(&mut self, channel: Channel, lines: u8, span: line::Span) -> Stepped {
        self.drive(lines, span.high)?;
        let one_x = self.is_one_x(channel, Clock::Receiver);
        let pulses = u64::from(span.pulses(one_x));
        if self.draws.one_in(if self.is_rare(channel) { 3 } else { 10 }) {
            // Early more often: there a start is not confirmed yet.
            let most = if self.draws.one_in(3) {
                pulses.min(8)
            } else {
                pulses
            };
            let first = self.draws.below(most + 1);
            self.pulses(channel, Clock::Receiver, first)?;
            self.disturb_line(channel)?;
            self.pulses(channel, Clock::Receiver, pulses - first)?;
        } else {
            self.pulses(channel, Clock::Receiver, pulses)?;
        }
        // Break change is cleared while the break lasts, or else its end shows nothing.
        if span.is_break() && self.draws.flip() {
            self.command(channel, 0x50)?;
        }
        if self.is_rare(channel) && self.draws.one_in(8) {
            return self.disturb_mode(channel);
        }
        Ok(())
    }

    /// After a low stop and in a break the receiver goes by rules that few other moments show.
    fn is_rare(&self, channel: Channel) -> bool {
        matches!(self.sampler(channel).phase, 3 | 4)
    }

    /// Whatever else is done, what a pulse means is changed where it can be: a character, a low stop and a
    /// break's end each go on by another rule then. Or the mode is changed, which drops them all.
    pub fn disturb_line(&mut self, channel: Channel) -> Stepped {
        if self.draws.one_in(if self.is_rare(channel) { 2 } else { 4 }) {
            return self.disturb_mode(channel);
        }
        if self.goes_by_pins(channel) && self.draws.flip() {
            return self.change_pulses_per_bit(channel);
        }
        self.disturb()
    }

    // ------------------------------------------------------------ sending

    /// Characters on one channel, in a hurry or not: a second write may replace the first.
    fn send(&mut self) -> Stepped {
        let channel = self.any_channel();
        self.enable(channel)?;
        for _ in 0..self.draws.between(1, 4) {
            let byte = self.draws.byte();
            self.write(channel.register(3), byte)?;
            self.read(channel.register(1))?;
            let bits = self.draws.below(14);
            self.bits(channel, Clock::Transmitter, bits)?;
            if self.draws.one_in(8) {
                self.disturb()?;
            }
        }
        Ok(())
    }

    /// A to B, A to A, and the other two: what is sent is received, damaged where the rates or formats
    /// differ.
    fn send_over_wires(&mut self) -> Stepped {
        let sender = self.any_channel();
        self.wires = self.some_wires();
        self.drive(0x03, false)?;
        for channel in Channel::BOTH {
            self.command(channel, 0x05)?;
        }
        self.bits(sender, Clock::Transmitter, 1)?;
        for _ in 0..self.draws.between(1, 5) {
            for channel in Channel::BOTH {
                let byte = self.draws.byte();
                self.write(channel.register(3), byte)?;
            }
            let bits = self.draws.between(8, 13);
            self.bits(sender, Clock::Transmitter, bits)?;
            if self.draws.one_in(6) {
                let channel = self.any_channel();
                self.serve(channel)?;
            }
            if self.draws.one_in(12) {
                self.disturb()?;
            }
        }
        Ok(())
    }

    fn some_wires(&mut self) -> Wires {
        let ends = [None, Some(Channel::A), Some(Channel::A), Some(Channel::B)];
        Wires {
            rxda: self.draws.pick(&ends),
            rxdb: self.draws.pick(&ends),
        }
    }

    /// A break asked for, idle or in a frame, ended in each of the three ways, with characters before and
    /// after.
    fn send_break(&mut self) -> Stepped {
        let channel = self.any_channel();
        if self.draws.flip() {
            self.wires = self.some_wires();
        }
        self.command(channel, 0x05)?;
        if self.draws.flip() {
            self.send_now(channel)?;
        }
        self.command(channel, 0x60)?;
        let bits = self.draws.pick(&[0, 1, 2, 12, 14, 24]);
        self.bits(channel, Clock::Transmitter, bits)?;
        if self.draws.flip() {
            self.send_now(channel)?;
        }
        if self.draws.one_in(8) {
            self.disturb_mode(channel)?;
        }
        let end = self
            .draws
            .pick(&[0x70, 0x70, 0x70, 0x08, 0x30, 0x34, 0x60, 0x68]);
        self.command(channel, end)?;
        if self.draws.flip() {
            self.command(channel, 0x04)?;
            let again = self.draws.pick(&[0x60, 0x00]);
            self.command(channel, again)?;
        }
        let pulses = self.draws.below(40);
        self.pulses(channel, Clock::Transmitter, pulses)?;
        if self.draws.one_in(8) {
            return self.disturb_mode(channel);
        }
        Ok(())
    }

    fn send_now(&mut self, channel: Channel) -> Stepped {
        let byte = self.draws.byte();
        self.write(channel.register(3), byte)?;
        let pulses = self.draws.below(24);
        self.pulses(channel, Clock::Transmitter, pulses)
    }
}

#[cfg(test)]
mod tests {
    use super::run;
    use crate::coverage::Coverage;

    #[test]
    fn a_seed_gives_the_same_script_each_time() {
        let (mut one, mut other) = (Coverage::default(), Coverage::default());
        assert!(run(1000, 5, &mut one).is_ok() && run(1000, 5, &mut other).is_ok());
        assert_eq!(one.events(), other.events());
    }
}
