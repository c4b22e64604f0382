//! The characters that have arrived: the queue of three, the waiting place, and what is kept of those
//! that were there.

use crate::character::Character;

#[derive(Clone)]
pub struct Queue {
    /// The oldest first.
    places: [Character; 3],
    held: usize,
    /// The waiting place; it is used only with three characters held.
    waiting: Option<Character>,
    overrun: bool,
    block_sums: u8,
    last_byte_read: u8,
}

impl Queue {
    /// "every other register, preload, count, phase, flag, mark, last byte read and output bit 0", "queues,
    /// waiting and holding places, shifters and assembly empty"
    pub fn after_chip_reset() -> Queue {
        Queue {
            places: [Character::NONE; 3],
            held: 0,
            waiting: None,
            overrun: false,
            block_sums: 0,
            last_byte_read: 0,
        }
    }

    /// "RxRDY: queue not empty."
    pub fn is_ready(&self) -> bool {
        self.held > 0
    }

    /// "FFULL: three in the queue."
    pub fn is_full(&self) -> bool {
        self.held == 3
    }

    pub fn overrun(&self) -> bool {
        self.overrun
    }

    /// "Character errors: SR 7-5 show the oldest's marks, 0 if none."
    pub fn oldest_marks(&self) -> u8 {
        if self.is_ready() {
            self.places[0].marks
        } else {
            0
        }
    }

    /// "Block: the marks, each bit ORed, of all that became oldest since command 4 or a chip reset." They
    /// grow in either error mode.
    pub fn block_sums(&self) -> u8 {
        self.block_sums
    }

    /// "An arrival goes to the queue of three, or waits when that is full."
    pub fn arrive(&mut self, character: Character) {
        if self.is_full() {
            self.waiting = Some(character);
        } else {
            self.hold(character);
        }
    }

    fn hold(&mut self, character: Character) {
        self.places[self.held] = character;
        self.held += 1;
        if self.held == 1 {
            self.oldest_is_new();
        }
    }

    fn oldest_is_new(&mut self) {
        self.block_sums |= self.oldest_marks();
    }

    /// "A confirmed start while one waits removes the waiting one and sets overrun."
    pub fn start_is_confirmed(&mut self) {
        if self.waiting.take().is_some() {
            self.overrun = true;
        }
    }

    /// "A read takes the oldest and moves the waiting one up; reading an empty queue repeats the last
    /// byte read (0 after a chip reset) and takes nothing."
    pub fn read(&mut self) -> u8 {
        if self.is_ready() {
            self.last_byte_read = self.places[0].data;
            self.places.rotate_left(1);
            self.held -= 1;
            self.oldest_is_new();
            if let Some(character) = self.waiting.take() {
                self.hold(character);
            }
        }
        self.last_byte_read
    }

    /// "queue, waiting place and assembly cleared; overrun mark stays". Block sums and the last byte read
    /// stay as well.
    pub fn clear(&mut self) {
        self.held = 0;
        self.waiting = None;
    }

    /// "4 clear overrun, block sums and the top character's marks"
    pub fn clear_errors(&mut self) {
        self.overrun = false;
        self.block_sums = 0;
        if self.is_ready() {
            self.places[0].marks = 0;
        }
    }
}
