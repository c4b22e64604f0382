//! What the chips are given to do.

use crate::capturing::{Capture, MOST_TICKS};
use crate::chips::{Chip, MOST_EVENTS, PLAIN, PROVED};
use crate::dumping::{Work, FRAME_EVENTS};

/// What a chip does while it is measured.
#[derive(Clone, Copy)]
pub enum Load {
    /// Ticks and nothing else.
    Idle,
    /// Both channels at 38,400 bits a second, each sending to the other.
    Busy,
    /// Order 5: the ticks of an idle chip in polls of 4,096.
    Poll,
    /// Order 5: runs of a fresh chip, CSR 0 and the timer off.
    RunFresh,
    /// Order 5: runs with both channels sending and receiving at 9,600 bits a second.
    Run9600,
    /// Order 6: the dump of a list with both channels sending and receiving at 9,600 bits a second. All but 14 of 3,854
    /// events are ticks, and each is counted as one.
    Dump,
    /// Order 7: such a dump read back. Its ticks are the events that it was made of.
    Capture,
    /// Order 7: a capture of up to 4,000,000,000 ns with few changes.
    CaptureLong,
}

/// A chip that is ready for a load, the list of its dump, and the capture.
pub struct Ready<C: Chip> {
    pub chip: C,
    work: Work<C>,
    pub capture: Capture,
}

impl Load {
    pub const ALL: [Load; 8] = [
        Load::Idle,
        Load::Busy,
        Load::Poll,
        Load::RunFresh,
        Load::Run9600,
        Load::Dump,
        Load::Capture,
        Load::CaptureLong,
    ];

    pub fn name(self) -> &'static str {
        match self {
            Load::Idle => "idle",
            Load::Busy => "busy",
            Load::Poll => "poll",
            Load::RunFresh => "run-fresh",
            Load::Run9600 => "run-9600",
            Load::Dump => "dump",
            Load::Capture => "capture",
            Load::CaptureLong => "capture-long",
        }
    }

    /// A run and a capture pass over most ticks, so their instructions are counted for a thousand of them.
    pub fn ticks_counted(self) -> u64 {
        match self {
            Load::Idle | Load::Busy | Load::Poll | Load::Dump => 1,
            Load::RunFresh | Load::Run9600 | Load::Capture | Load::CaptureLong => 1_000,
        }
    }

    /// The ticks of a round that is timed.
    pub fn ticks_a_round(self) -> u32 {
        match self {
            Load::CaptureLong => MOST_TICKS,
            _ => 1_000_000,
        }
    }

    pub fn unit(self) -> &'static str {
        match self.ticks_counted() {
            1 => "instructions a tick",
            _ => "instructions a thousand ticks",
        }
    }

    /// The ticks of two runs whose instructions are counted. Between them is a whole number of what comes again: a frame of 11
    /// bits at 38,400 bits a second, in which a character comes; a poll of 4,096; ten periods of code 0; two frames at 9,600,
    /// and eight of a dump or its capture, so that one shows whose cost grows with its text; a tenth of the longest capture.
    /// More say nothing more, and the emulator's log has a line for each instruction.
    pub fn spans(self) -> [u32; 2] {
        match self {
            Load::Idle | Load::Busy => [528, 1_584],
            Load::Poll => [1, 1 + 4_096],
            Load::RunFresh => [4_608, 11 * 4_608],
            Load::Run9600 => [2 * FRAME_9600, 4 * FRAME_9600],
            Load::Dump | Load::Capture => [2 * FRAME_EVENTS, 10 * FRAME_EVENTS],
            Load::CaptureLong => [MOST_TICKS / 10, 2 * (MOST_TICKS / 10)],
        }
    }

    /// A chip that is ready for up to so many ticks of it. A list is made for both runs that are counted, so that the making
    /// of it does not count.
    pub fn ready<C: Chip>(self, ticks: u32) -> Ready<C> {
        let mut chip = C::fresh();
        match self {
            Load::Busy => prepare(&mut chip),
            Load::Run9600 | Load::Dump => prepare_9600(&mut chip),
            Load::Idle | Load::Poll | Load::RunFresh | Load::Capture | Load::CaptureLong => {}
        }
        let most = ticks.max(self.spans()[1]);
        let work = match self {
            Load::Dump => Work::of(most),
            _ => Work::none(),
        };
        let capture = match self {
            Load::Capture => Capture::of_dump(&Load::Dump.ready::<model::Chip>(0).chip, most),
            Load::CaptureLong => Capture::of_few_changes(),
            _ => Capture::none(),
        };
        Ready { chip, work, capture }
    }

    /// So many ticks of it, and a sum over what was seen.
    pub fn run<C: Chip>(self, ready: &mut Ready<C>, ticks: u32) -> u64 {
        let Ready { chip, work, capture } = ready;
        match self {
            Load::Idle => idle(chip, ticks),
            Load::Busy => busy(chip, ticks),
            Load::Poll => poll(chip, ticks),
            Load::RunFresh => run_fresh(chip, ticks),
            Load::Run9600 => run_9600(chip, ticks),
            Load::Dump => work.dump(chip, ticks),
            Load::Capture | Load::CaptureLong => capture.read::<C>(ticks),
        }
    }
}

/// The same, of a fresh chip, by the names of the chip and of the load; none where a word is none of these.
pub fn run(chip: &str, load: &str, ticks: &str) -> Option<u64> {
    let load = Load::ALL.into_iter().find(|known| known.name() == load)?;
    let ticks = ticks.parse().ok()?;
    match chip {
        PROVED => Some(load.run(&mut load.ready::<duart::Duart>(ticks), ticks)),
        PLAIN => Some(load.run(&mut load.ready::<model::Chip>(ticks), ticks)),
        _ => None,
    }
}

fn idle<C: Chip>(chip: &mut C, ticks: u32) -> u64 {
    let mut sum = 0;
    for _ in 0..ticks {
        let (txda, txdb, _) = chip.step(model::Event::Tick);
        sum += u64::from(txda) + u64::from(txdb);
    }
    sum
}

/// Code 12 for 38,400 bits a second, 8 data bits with parity, the receivers and transmitters on.
fn prepare<C: Chip>(chip: &mut C) {
    for base in [0, 8] {
        for (register, byte) in [(0, 0x03), (0, 0x07), (1, 0xcc), (2, 0x05)] {
            chip.step(model::Event::Write(base + register, byte));
        }
    }
}

/// The transmitters are kept full and each character that comes is read.
fn busy<C: Chip>(chip: &mut C, ticks: u32) -> u64 {
    let mut sum = 0;
    let mut levels = (true, true);
    for tick in 0..ticks {
        let (txda, txdb, _) = chip.step(model::Event::Tick);
        if (txda, txdb) != levels {
            levels = (txda, txdb);
            let received = (u8::from(txdb) << 6) | (u8::from(txda) << 7);
            chip.step(model::Event::Pins(0x3f | received));
        }
        if tick % 512 == 0 {
            sum += serve(chip, 0, tick) + serve(chip, 8, tick);
        }
    }
    sum
}

/// The program's part: reads what has come and gives what there is room for.
fn serve<C: Chip>(chip: &mut C, base: u8, tick: u32) -> u64 {
    let (_, _, status) = chip.step(model::Event::Read(base + 1));
    let mut sum = 0;
    if status & 1 != 0 {
        let (_, _, data) = chip.step(model::Event::Read(base + 3));
        sum += 1 + u64::from(data);
    }
    if status & 4 != 0 {
        chip.step(model::Event::Write(base + 3, (tick / 512) as u8));
    }
    sum
}

// ------------------------------------------------------------ order 5's calls

fn poll<C: Chip>(chip: &mut C, ticks: u32) -> u64 {
    let mut sum = 0;
    let mut left = ticks as usize;
    while left > 0 {
        let (count, txda) = chip.poll_ticks(left.min(MOST_EVENTS));
        sum += count as u64 + u64::from(txda);
        left -= count;
    }
    sum
}

fn run_fresh<C: Chip>(chip: &mut C, ticks: u32) -> u64 {
    let (ran, irq) = chip.run(ticks);
    u64::from(ran) + u64::from(irq)
}

/// 3,686,400 ticks a second, 9,600 bits a second.
pub const BIT_9600: u32 = 384;
/// A start bit, 8 data bits and a stop bit.
pub const FRAME_9600: u32 = 10 * BIT_9600;

/// Code 11 for 9,600 bits a second, 8 data bits, no parity, the receivers and transmitters on; IRQ by what has come.
fn prepare_9600<C: Chip>(chip: &mut C) {
    for base in [0, 8] {
        for (register, byte) in [(0, 0x13), (0, 0x07), (1, 0xbb), (2, 0x05)] {
            chip.step(model::Event::Write(base + register, byte));
        }
    }
    chip.step(model::Event::Write(5, 0x22));
    go_on(chip, BIT_9600);
}

/// Someone sends into both RxD, a character after the other, and each time one has come IRQ is served and the transmitters are
/// given the next: as an emulator goes on, from one thing that happens outside to the next.
fn run_9600<C: Chip>(chip: &mut C, ticks: u32) -> u64 {
    let mut sum = 0;
    for bit in 0..ticks / BIT_9600 {
        let levels = (u32::from((bit / 10) as u8) << 1) | 0x200;
        let high = (levels >> (bit % 10)) & 1 == 1;
        chip.step(model::Event::Pins(if high { 0xff } else { 0x3f }));
        sum += go_on(chip, BIT_9600);
    }
    sum
}

/// Ticks until something happens outside, with IRQ served.
fn go_on<C: Chip>(chip: &mut C, ticks: u32) -> u64 {
    let mut sum = 0;
    let mut left = ticks;
    while left > 0 {
        let (ran, irq) = chip.run(left);
        left -= ran;
        if irq {
            sum += serve(chip, 0, left) + serve(chip, 8, left);
        }
    }
    sum
}

#[cfg(test)]
mod tests {
    use super::*;

    #[test]
    fn the_two_see_the_same() {
        for load in Load::ALL {
            let ticks = load.spans()[1].to_string();
            let seen = |chip| run(chip, load.name(), &ticks).expect("a chip and a load");
            assert_eq!(seen(PROVED), seen(PLAIN), "{}", load.name());
        }
    }

    #[test]
    fn characters_come_while_it_is_counted() {
        for load in [Load::Busy, Load::Run9600, Load::Dump, Load::Capture, Load::CaptureLong] {
            let seen = load.spans().map(|ticks| run(PROVED, load.name(), &ticks.to_string()));
            assert!(seen[1] > seen[0], "{}", load.name());
        }
    }

    /// Of each channel: a character in each frame, and a transmitter that is never idle once it was served.
    #[test]
    fn both_channels_send_and_receive_at_9600() {
        let mut ready = Load::Run9600.ready::<model::Chip>(0);
        Load::Run9600.run(&mut ready, 2 * FRAME_9600);
        let mut chip = ready.chip;
        let status = [1, 9].map(|register| Chip::step(&mut chip, model::Event::Read(register)).2);
        assert_eq!(status.map(|status| status & 0xf9), [0; 2]);
        let buffers = [3, 11].map(|register| Chip::step(&mut chip, model::Event::Read(register)).2);
        assert_eq!(buffers, [1; 2]);
    }

    #[test]
    fn other_words_are_refused() {
        assert_eq!(run("proved", "lazy", "1"), None);
        assert_eq!(run("proven", "idle", "1"), None);
        assert_eq!(run("proved", "idle", "one"), None);
    }
}
