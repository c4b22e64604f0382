//! Shows it on the analyser (order 6): both channels send a byte at 9,600 bits a second, IRQ tells of each that goes
//! out, and the value change dump of it is written to standard output. `cargo run --example dump > duart.vcd && gtkwave
//! duart.vcd` shows it.

use duart::bits::{command, isr, mr1, mr2};
use duart::{dump_space, Duart, Event, EventRecord, Register};
use std::error::Error;
use std::io::{self, Write};

/// The first pulse of the transmitters' clocks, at which the characters start.
const PULSE: usize = 24;
/// A start bit, 8 data bits and a stop bit, 384 ticks each.
const FRAME: usize = 10 * 384;

/// 9,600 bits a second, code 11, and a byte for each channel.
fn events() -> Vec<EventRecord> {
    let mut events = vec![
        Event::write(Register::MRA, mr1::NO_PARITY | mr1::DATA_BITS_8),
        Event::write(Register::MRA, mr2::ONE_STOP_BIT),
        Event::write(Register::CSRA, 0xbb),
        Event::write(Register::MRB, mr1::NO_PARITY | mr1::DATA_BITS_8),
        Event::write(Register::MRB, mr2::ONE_STOP_BIT),
        Event::write(Register::CSRB, 0xbb),
        Event::write(Register::IMR, isr::TX_RDY_A | isr::TX_RDY_B),
        Event::write(Register::CRA, command::ENABLE_TRANSMITTER),
        Event::write(Register::CRB, command::ENABLE_TRANSMITTER),
        Event::write(Register::TBA, b'U'),
        Event::write(Register::TBB, b'A'),
    ];
    events.extend([Event::Tick; PULSE + FRAME]);
    // a dump ends with its last change: OP0 falls after the stop bits
    events.push(Event::write(Register::SET_OUTPUT_BITS, 0x01));
    events.into_iter().map(EventRecord::from).collect()
}

fn main() -> Result<(), Box<dyn Error>> {
    let events = events();
    let mut space = vec![0; dump_space(events.len())];
    let length = Duart::fresh().dump(&events, &mut space)?;
    let text = std::str::from_utf8(&space[..length])?;
    io::stdout().write_all(text.as_bytes())?;
    let starts = "\n#6510\n0!\n0\"\n0#\n";
    let stops = "\n#944010\n1!\n1\"\n#1048177\n0$\n";
    if !text.contains(starts) || !text.ends_with(stops) {
        return Err("the start bits or the stop bits stand elsewhere".into());
    }
    Ok(())
}
