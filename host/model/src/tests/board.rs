//! A board with one chip: events in few words.

use crate::{Chip, Event, Seen};

pub const ENABLE_RECEIVER: u8 = 0x01;
pub const DISABLE_RECEIVER: u8 = 0x02;
pub const ENABLE_TRANSMITTER: u8 = 0x04;
pub const DISABLE_TRANSMITTER: u8 = 0x08;
pub const POINTER_TO_MR1: u8 = 0x10;
pub const RESET_RECEIVER: u8 = 0x20;
pub const RESET_TRANSMITTER: u8 = 0x30;
pub const CLEAR_ERRORS: u8 = 0x40;
pub const CLEAR_BREAK_CHANGE: u8 = 0x50;
pub const START_BREAK: u8 = 0x60;
pub const STOP_BREAK: u8 = 0x70;

/// CSR: both sides of a channel on their pins.
pub const PINS_16X: u8 = 0xEE;
pub const PINS_1X: u8 = 0xFF;

/// MR2 bits 7-6, with one stop bit.
pub const NORMAL: u8 = 0x07;
pub const ECHO: u8 = 0x47;
pub const LOCAL: u8 = 0x87;
pub const REMOTE: u8 = 0xC7;

pub const IP0: u8 = 0x01;
pub const IP1: u8 = 0x02;
pub const IP2: u8 = 0x04;
pub const IP3: u8 = 0x08;
pub const IP4: u8 = 0x10;
pub const IP5: u8 = 0x20;
pub const RXDA: u8 = 0x40;
pub const RXDB: u8 = 0x80;

// "SR bits 7-0: break, framing, parity, overrun, TxEMT, TxRDY, FFULL, RxRDY."
pub const BREAK: u8 = 0x80;
pub const FRAMING: u8 = 0x40;
pub const PARITY: u8 = 0x20;
pub const OVERRUN: u8 = 0x10;
pub const FFULL: u8 = 0x02;
pub const RXRDY: u8 = 0x01;

pub struct Board {
    chip: Chip,
    pins: u8,
}

impl Board {
    pub fn fresh() -> Board {
        Board {
            chip: Chip::fresh(),
            pins: 255,
        }
    }

    /// Channel A with both sides on their pins, 8 data bits, no parity, one stop bit, and a command.
    pub fn on_pins(csr: u8, command: u8) -> Board {
        let mut board = Board::fresh();
        board.mode(0x13, 7);
        board.write(1, csr);
        board.command(command);
        board
    }

    /// The same in a mode, the command coming after it.
    pub fn in_mode(mode: u8, csr: u8, command: u8) -> Board {
        let mut board = Board::on_pins(csr, 0);
        board.to(mode);
        board.command(command);
        board
    }

    /// The chip alone. The board does not hear of pins that are moved through it.
    pub fn chip(&mut self) -> &mut Chip {
        &mut self.chip
    }

    // ------------------------------------------------------------ events

    pub fn give(&mut self, event: Event) -> Seen {
        if let Event::Pins(levels) = event {
            self.pins = levels;
        }
        self.chip.step(event)
    }

    fn accepted(&mut self, event: Event) -> Seen {
        let seen = self.give(event);
        assert_eq!(seen.number, 0, "{event:?} is refused");
        seen
    }

    pub fn write(&mut self, register: u8, byte: u8) -> Seen {
        self.accepted(Event::Write(register, byte))
    }

    pub fn read(&mut self, register: u8) -> u8 {
        self.accepted(Event::Read(register)).data
    }

    pub fn command(&mut self, command: u8) -> Seen {
        self.write(2, command)
    }

    /// MR1 and MR2 of A.
    pub fn mode(&mut self, mr1: u8, mr2: u8) {
        self.command(POINTER_TO_MR1);
        self.write(0, mr1);
        self.write(0, mr2);
    }

    /// MR2 of A; the pointer is there.
    pub fn to(&mut self, mr2: u8) -> Seen {
        self.write(0, mr2)
    }

    pub fn preload(&mut self, preload: u16) {
        let [high, low] = preload.to_be_bytes();
        self.write(6, high);
        self.write(7, low);
    }

    pub fn start_counter(&mut self) {
        assert_eq!(self.read(14), 0);
    }

    pub fn stop_counter(&mut self) {
        assert_eq!(self.read(15), 0);
    }

    pub fn low(&mut self, pins: u8) -> Seen {
        self.accepted(Event::Pins(self.pins & !pins))
    }

    pub fn high(&mut self, pins: u8) -> Seen {
        self.accepted(Event::Pins(self.pins | pins))
    }

    pub fn ticks(&mut self, ticks: u32) {
        for _ in 0..ticks {
            self.accepted(Event::Tick);
        }
    }

    // ------------------------------------------------------------ what shows

    /// What shows of the whole state, and it stays as it was: the answers to reads of every register, and to
    /// what moves the clocks, the counter and both channels.
    pub fn shows(&self) -> Vec<Seen> {
        let mut chip = self.chip.clone();
        let reads = (0..16).map(Event::Read);
        let pins = [0x00, 0xff, 0xc0, 0xff].into_iter().map(Event::Pins);
        let moves = pins.chain([Event::Tick; 5_000]);
        let events: Vec<Event> = reads.clone().chain(moves).chain(reads).collect();
        events.into_iter().map(|event| chip.step(event)).collect()
    }

    /// The lines as they stand, by an event that changes nothing.
    pub fn lines(&mut self) -> Seen {
        self.accepted(Event::Read(12))
    }

    pub fn sr(&mut self) -> u8 {
        self.read(1)
    }

    pub fn txda(&mut self) -> bool {
        self.lines().txda
    }

    pub fn isr(&mut self) -> u8 {
        self.read(5)
    }

    pub fn isr_bit_3(&mut self) -> bool {
        self.isr() & 8 != 0
    }

    pub fn break_change(&mut self) -> bool {
        self.isr() & 4 != 0
    }

    pub fn count(&mut self) -> u16 {
        u16::from_be_bytes([self.read(6), self.read(7)])
    }

    /// How many times `act` is done until `shows`, if at most `limit`.
    pub fn times_until(
        &mut self,
        limit: u32,
        act: fn(&mut Board),
        shows: fn(&mut Board) -> bool,
    ) -> Option<u32> {
        (1..=limit).find(|_| {
            act(self);
            shows(self)
        })
    }

    pub fn ticks_until(&mut self, limit: u32, shows: fn(&mut Board) -> bool) -> Option<u32> {
        self.times_until(limit, |board| board.ticks(1), shows)
    }

    // ------------------------------------------------------------ A's transmitter on IP3

    /// One pulse, and TxDA after it.
    pub fn send_pulse(&mut self) -> bool {
        self.high(IP3);
        self.low(IP3).txda
    }

    /// TxDA after each of some pulses, as 0s and 1s.
    pub fn sends(&mut self, pulses: u32) -> String {
        let levels = (0..pulses).map(|_| if self.send_pulse() { '1' } else { '0' });
        levels.collect()
    }

    pub fn send_pulses_until_low(&mut self) -> Option<u32> {
        (1..=40).find(|_| !self.send_pulse())
    }

    pub fn send_pulses_until_empty(&mut self) -> Option<u32> {
        (1..=400).find(|_| {
            self.send_pulse();
            self.sr() & 8 != 0
        })
    }

    // ------------------------------------------------------------ A's receiver on IP4

    /// One pulse at a level of RxDA.
    pub fn receive_pulse(&mut self, high: bool) {
        self.low(IP4 | if high { 0 } else { RXDA });
        self.high(IP4 | if high { RXDA } else { 0 });
    }

    /// Some pulses at one level.
    pub fn receive_pulses(&mut self, pulses: u32, high: bool) {
        for _ in 0..pulses {
            self.receive_pulse(high);
        }
    }

    /// Levels as 0s and 1s, some pulses each; blanks are not looked at.
    pub fn receive(&mut self, pulses_each: u32, levels: &str) {
        for level in levels.chars().filter(|level| *level != ' ') {
            self.receive_pulses(pulses_each, level == '1');
        }
    }

    /// A character of 8 data bits without parity at 1X, after a high.
    pub fn receive_byte(&mut self, byte: u8) {
        self.receive(1, "1 0");
        for bit in 0..8 {
            self.receive_pulse(byte >> bit & 1 == 1);
        }
        self.receive_pulse(true);
    }

    pub fn receive_bytes(&mut self, bytes: &[u8]) {
        for byte in bytes {
            self.receive_byte(*byte);
        }
    }
}
