//! One receiver: what it does with the line, pulse by pulse, and its queue.

use crate::character::{Assembly, Character};
use crate::format::{ClockKind, Setting};
use crate::level::Level;
use crate::queue::Queue;

/// What the receiver is doing with the line.
#[derive(Clone, Copy)]
enum Sampler {
    Disabled,
    /// Looking for a low after a high; `high_seen` says whether a low counts.
    Hunting {
        high_seen: bool,
    },
    /// From the low pulse p to the stop sample.
    Assembling(Assembly),
    /// After the low stop of a character that was no break: its 16X or 1X, and the lows since.
    AfterLowStop {
        taken: ClockKind,
        lows: u8,
    },
    /// After a break: the highs in a row so far.
    WaitingForBreakEnd {
        highs: u8,
    },
}

/// MR1: "bit 6 FFULL instead of RxRDY for ISR; 5 block errors": which errors SR 7-5 show.
#[derive(Clone, Copy)]
pub enum ErrorMode {
    Character,
    Block,
}

// "SR bits 7-0: break, framing, parity, overrun, TxEMT, TxRDY, FFULL, RxRDY."
const OVERRUN: u8 = 0b0001_0000;
const FFULL: u8 = 0b0000_0010;
const RXRDY: u8 = 0b0000_0001;

#[derive(Clone)]
pub struct Receiver {
    sampler: Sampler,
    pub queue: Queue,
    break_change: bool,
}

impl Receiver {
    /// "both sides disabled, queues, waiting and holding places, shifters and assembly empty"
    pub fn after_chip_reset() -> Receiver {
        Receiver {
            sampler: Sampler::Disabled,
            queue: Queue::after_chip_reset(),
            break_change: false,
        }
    }

    pub fn is_enabled(&self) -> bool {
        !matches!(self.sampler, Sampler::Disabled)
    }

    // ------------------------------------------------------------ a pulse of the receiver's clock

    /// One pulse with the line's level and the setting as it stands.
    pub fn pulse(&mut self, level: Level, standing: Setting) {
        self.sampler = match self.sampler {
            Sampler::Disabled => Sampler::Disabled,
            Sampler::Hunting { high_seen } => self.hunt(high_seen, level, standing),
            Sampler::Assembling(mut assembly) => {
                assembly.next_pulse();
                self.assemble(assembly, level)
            }
            Sampler::AfterLowStop { taken, lows } => {
                self.follow_low_stop(taken, lows + 1, level, standing)
            }
            Sampler::WaitingForBreakEnd { highs } => {
                self.wait_for_break_end(highs + 1, level, standing.clock_kind)
            }
        };
    }

    /// "A receiver just enabled must sample a high before a low counts" and, once one is seen, "after a
    /// high, a low at pulse p". "hunting and a break's end go by CSR as it stands."
    fn hunt(&mut self, high_seen: bool, level: Level, standing: Setting) -> Sampler {
        match level {
            Level::High => Sampler::Hunting { high_seen: true },
            Level::Low if high_seen => self.start_at_low_pulse_p(standing),
            Level::Low => Sampler::Hunting { high_seen: false },
        }
    }

    /// This pulse, a low, is p. At 1X it is the start's sample as well: "the next low is a start,
    /// confirmed at once".
    fn start_at_low_pulse_p(&mut self, standing: Setting) -> Sampler {
        self.assemble(Assembly::at_low_pulse_p(standing), Level::Low)
    }

    fn assemble(&mut self, mut assembly: Assembly, level: Level) -> Sampler {
        if !assembly.samples_on_this_pulse() {
            return Sampler::Assembling(assembly);
        }
        if !assembly.start_is_confirmed() {
            // "at p+8 it must still be low, else hunt again": the high there is a seen one.
            if level == Level::High {
                return Sampler::Hunting { high_seen: true };
            }
            self.queue.start_is_confirmed();
        }
        assembly.take_sample(level);
        if assembly.has_stop_sample() {
            self.finish(assembly)
        } else {
            Sampler::Assembling(assembly)
        }
    }

    /// The stop sample: "the character arrives at the first stop sample", and the receiver goes on by
    /// what it was.
    fn finish(&mut self, assembly: Assembly) -> Sampler {
        self.queue.arrive(assembly.character());
        if assembly.is_break() {
            // "a zero with the break mark alone, break change set; hunting waits for 8 high pulses in a
            // row"
            self.break_change = true;
            Sampler::WaitingForBreakEnd { highs: 0 }
        } else if assembly.stop_is_low() {
            // "What follows a low stop goes by that character's 16X or 1X until a high or a start."
            Sampler::AfterLowStop {
                taken: assembly.clock_kind(),
                lows: 0,
            }
        } else {
            // The high stop is a seen high: the next low may come on the next pulse.
            Sampler::Hunting { high_seen: true }
        }
    }

    /// At 16X, after a low stop: "if low at the 8 next pulses, the last of them counts as a new low at
    /// p." At 1X: "after any stop the next low is a start". Which of the two goes by the character that
    /// had the low stop; from p on the new one has its own. `lows` counts this pulse if it is low.
    fn follow_low_stop(
        &mut self,
        taken: ClockKind,
        lows: u8,
        level: Level,
        standing: Setting,
    ) -> Sampler {
        if level == Level::High {
            return Sampler::Hunting { high_seen: true };
        }
        let lows_to_p = match taken {
            ClockKind::SixteenX => 8,
            ClockKind::OneX => 1,
        };
        if lows == lows_to_p {
            self.start_at_low_pulse_p(standing)
        } else {
            Sampler::AfterLowStop { taken, lows }
        }
    }

    /// "hunting waits for 8 high pulses in a row, then break change is set again." At 1X "one high ends
    /// a break." "hunting and a break's end go by CSR as it stands". The last of the highs is a seen
    /// high. `highs` counts this pulse if it is high.
    fn wait_for_break_end(&mut self, highs: u8, level: Level, standing: ClockKind) -> Sampler {
        if level == Level::Low {
            return Sampler::WaitingForBreakEnd { highs: 0 };
        }
        if standing == ClockKind::OneX || highs == 8 {
            self.break_change = true;
            return Sampler::Hunting { high_seen: true };
        }
        Sampler::WaitingForBreakEnd { highs }
    }

    // ------------------------------------------------------------ commands

    /// "bits 6-4 first, then 3-2 (01 enable, 10 disable transmitter), then 1-0 (receiver)."
    pub fn command(&mut self, bits_6_4: u8, bits_1_0: u8) {
        match bits_6_4 {
            2 => self.reset(),
            4 => self.queue.clear_errors(),
            // "5 clear break change"
            5 => self.break_change = false,
            // The others are the pointer's and the transmitter's.
            _ => {}
        }
        match bits_1_0 {
            0b01 => self.enable(),
            0b10 => self.disable(),
            _ => {}
        }
    }

    /// "2 reset receiver (disabled; queue, waiting place and assembly cleared; overrun mark stays)". Break
    /// change stays as well.
    fn reset(&mut self) {
        self.disable();
        self.queue.clear();
    }

    /// A receiver that nobody writes commands to, but that is enabled all the same (order 7).
    pub fn just_enable(&mut self) {
        self.enable();
    }

    /// "Enabling it again changes nothing."
    fn enable(&mut self) {
        if !self.is_enabled() {
            self.sampler = Sampler::Hunting { high_seen: false };
        }
    }

    /// "Disable drops the character being put together and ends the wait for a break's end, no more."
    fn disable(&mut self) {
        self.sampler = Sampler::Disabled;
    }

    /// Order 2: "A mode change drops what is being sent" "or put together, leaves an enabled receiver as just
    /// enabled": hunting with no high seen, from wherever it was.
    pub fn drop_what_is_put_together(&mut self) {
        if self.is_enabled() {
            self.sampler = Sampler::Hunting { high_seen: false };
        }
    }

    /// The oldest character with its own marks, taken. Where it is asked after each pulse none is ever lost (order 7).
    pub fn take_character(&mut self) -> Option<Character> {
        let marks = self.queue.oldest_marks();
        self.queue.is_ready().then(|| Character { data: self.queue.read(), marks })
    }

    // ------------------------------------------------------------ what it shows

    pub fn break_change(&self) -> bool {
        self.break_change
    }

    /// The receiver's bits of SR, 7-4 and 1-0.
    pub fn status(&self, error_mode: ErrorMode) -> u8 {
        let errors = match error_mode {
            ErrorMode::Character => self.queue.oldest_marks(),
            ErrorMode::Block => self.queue.block_sums(),
        };
        let overrun = if self.queue.overrun() { OVERRUN } else { 0 };
        let ffull = if self.queue.is_full() { FFULL } else { 0 };
        let rxrdy = if self.queue.is_ready() { RXRDY } else { 0 };
        errors | overrun | ffull | rxrdy
    }
}
