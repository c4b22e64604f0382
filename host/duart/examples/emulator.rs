//! The main loop of an emulator. Order 5: "The emulator crosses into the model for each event." This one does not: it
//! runs the chip until IRQ is asserted or something outside happens, serves the interrupt by one poll, and goes on. A
//! height gauge sends offsets into channel A at 9,600 bits a second, and the timer beats every 5 ms.

use duart::{Duart, Event, EventRecord, Refusal, Seen, MOST_TICKS};

const TICKS_A_SECOND: u32 = 3_686_400;
/// 9,600 bits a second: code 11, 24 ticks a 16X pulse.
const TICKS_A_BIT: u32 = 384;
/// Two countdowns of 576 pulses of ticks/16: 5 ms.
const TICKS_A_BEAT: u32 = 2 * 576 * 16;
const RXDA: u8 = 1 << 6;
const VECTOR: u8 = 0x41;

const SET_UP: [Event; 9] = [
    Event::Write(0, 0x13), // MR1A: 8 data bits, no parity
    Event::Write(0, 0x07), // MR2A: one stop bit
    Event::Write(1, 0xbb), // CSRA: code 11 for the receiver and the transmitter
    Event::Write(2, 0x01), // command: enable the receiver
    Event::Write(6, 0x02), // preload, 576
    Event::Write(7, 0x40),
    Event::Write(12, VECTOR), // IVR
    Event::Write(5, 0x0a),    // IMR: the receiver of A and the timer
    Event::Write(4, 0x70),    // ACR: the timer on ticks/16
];

/// The vector, ISR, SRA and the receive buffer of A, whose read changes nothing where it is stale.
const LOOK: [Event; 4] = [Event::Acknowledge, Event::Read(5), Event::Read(1), Event::Read(3)];

struct Machine {
    chip: Duart,
    calls: u32,
    ticks: u32,
    offsets: Vec<u8>,
    beats: u32,
}

impl Machine {
    fn new() -> Result<Machine, Refusal> {
        let mut machine = Machine { chip: Duart::fresh(), calls: 0, ticks: 0, offsets: Vec::new(), beats: 0 };
        machine.poll(SET_UP)?;
        Ok(machine)
    }

    /// A list of events in one call. A refused event is no error of the call: its answer is the last one written.
    fn poll<const N: usize>(&mut self, events: [Event; N]) -> Result<[Seen; N], Refusal> {
        let mut answers = [Seen::default(); N];
        let count = self.chip.poll(&events.map(EventRecord::from), &mut answers)?;
        self.calls += 1;
        for seen in &answers[..count] {
            seen.accepted()?;
        }
        assert_eq!(count, N);
        Ok(answers)
    }

    /// The interrupt's program.
    fn serve(&mut self) -> Result<(), Refusal> {
        let [vector, isr, status, buffer] = self.poll(LOOK)?;
        assert_eq!(vector.data, VECTOR);
        if buffer.fresh {
            assert_eq!(status.data & 0xf1, 0x01, "RxRDY, no error mark and no overrun");
            self.offsets.push(buffer.data);
        }
        if isr.data & 0x08 != 0 {
            self.beats += 1;
            self.poll([Event::Read(15)])?; // a stop clears ISR bit 3 and lets the timer run
        }
        Ok(())
    }

    /// The main loop: so many ticks pass before something outside happens.
    fn go_on(&mut self, ticks: u32) -> Result<(), Refusal> {
        let mut left = ticks;
        while left > 0 {
            let ran = self.chip.run_until_irq(left.min(MOST_TICKS))?;
            self.calls += 1;
            assert!(ran.ticks > 0, "the last interrupt was served, and IRQ is still asserted");
            left -= ran.ticks;
            self.ticks += ran.ticks;
            if ran.irq {
                self.serve()?;
            }
        }
        Ok(())
    }

    /// What happens outside: the gauge moves RxDA, a start bit, the offset lowest bit first, a stop bit.
    fn gauge_sends(&mut self, offset: u8) -> Result<(), Refusal> {
        let bits = (u16::from(offset) << 1) | 0x200;
        for bit in 0..10 {
            let high = (bits >> bit) & 1 == 1;
            self.chip.step(Event::Pins(if high { 0xff } else { 0xff & !RXDA }))?;
            self.calls += 1;
            self.go_on(TICKS_A_BIT)?;
        }
        Ok(())
    }
}

fn main() -> Result<(), Refusal> {
    let mut machine = Machine::new()?;
    machine.go_on(TICKS_A_BIT)?; // the receiver must sample a high first
    let sent: Vec<u8> = (1..=20).collect();
    for offset in &sent {
        machine.gauge_sends(*offset)?;
    }
    assert_eq!(machine.offsets, sent);
    println!("{} offsets came, in {} ticks with {} beats", sent.len(), machine.ticks, machine.beats);

    machine.go_on(TICKS_A_SECOND)?;
    assert_eq!(machine.offsets, sent, "nothing came in a quiet second");
    assert_eq!(machine.ticks, 201 * TICKS_A_BIT + TICKS_A_SECOND);
    assert_eq!(machine.beats, machine.ticks / TICKS_A_BEAT);
    assert!(machine.calls < 1_200);
    println!("a quiet second more: {} ticks with {} beats, in {} calls", machine.ticks, machine.beats, machine.calls);
    Ok(())
}
