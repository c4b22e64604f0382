//! The bits of the registers by name, as document 01 has them. Those of one register have a type, and are put together
//! with `|`, or in a constant with `or`; a bit of another register does not go with them.
//! [`Event::write`](crate::Event::write) takes them as they are.
//!
//! ```
//! use duart::bits::{mr1, sr};
//!
//! const FORM: mr1::Bits = mr1::NO_PARITY.or(mr1::DATA_BITS_8);
//! assert_eq!(FORM.byte(), 0x13);
//! assert!(sr::RX_RDY.are_in(0x05) && !(sr::RX_RDY | sr::FFULL).are_in(0x05));
//! ```
//!
//! ```compile_fail
//! use duart::bits::{mr1, sr};
//!
//! let _ = mr1::NO_PARITY | sr::RX_RDY;
//! ```

/// The type of a register's bits.
macro_rules! bits_of_one_register {
    () => {
        /// Some bits of this register.
        #[derive(Clone, Copy, Debug, PartialEq, Eq, Hash)]
        pub struct Bits(u8);

        impl Bits {
            /// These and the others: `|`, which a constant cannot have.
            #[must_use]
            pub const fn or(self, others: Bits) -> Bits {
                Bits(self.0 | others.0)
            }

            /// The byte in which they are set and the others are not.
            #[must_use]
            pub const fn byte(self) -> u8 {
                self.0
            }

            /// Whether all of them are set in a byte that was read.
            #[must_use]
            pub const fn are_in(self, byte: u8) -> bool {
                byte & self.0 == self.0
            }
        }

        impl core::ops::BitOr for Bits {
            type Output = Bits;

            fn bitor(self, others: Bits) -> Bits {
                self.or(others)
            }
        }

        impl From<Bits> for u8 {
            fn from(bits: Bits) -> u8 {
                bits.0
            }
        }
    };
}

/// The status of a channel, SRA and SRB.
pub mod sr {
    bits_of_one_register!();

    pub const BREAK: Bits = Bits(0x80);
    pub const FRAMING: Bits = Bits(0x40);
    pub const PARITY: Bits = Bits(0x20);
    pub const OVERRUN: Bits = Bits(0x10);
    /// "enabled, holding place and shifter empty"
    pub const TX_EMT: Bits = Bits(0x08);
    /// "enabled and holding place empty"
    pub const TX_RDY: Bits = Bits(0x04);
    /// "three in the queue"
    pub const FFULL: Bits = Bits(0x02);
    /// "queue not empty"
    pub const RX_RDY: Bits = Bits(0x01);

    pub(crate) const NAMES: [&str; 8] = ["RxRDY", "FFULL", "TxRDY", "TxEMT", "overrun", "parity", "framing", "break"];
}

/// The interrupt status, ISR, and what may interrupt, IMR.
pub mod isr {
    bits_of_one_register!();

    /// "some flag is set whose ACR bit (3-0) is set"
    pub const INPUT_CHANGE: Bits = Bits(0x80);
    pub const BREAK_CHANGE_B: Bits = Bits(0x40);
    /// RxRDY of B, or with MR1 bit 6 FFULL
    pub const RX_B: Bits = Bits(0x20);
    pub const TX_RDY_B: Bits = Bits(0x10);
    /// the counter/timer's
    pub const COUNTER: Bits = Bits(0x08);
    pub const BREAK_CHANGE_A: Bits = Bits(0x04);
    /// RxRDY of A, or with MR1 bit 6 FFULL
    pub const RX_A: Bits = Bits(0x02);
    pub const TX_RDY_A: Bits = Bits(0x01);

    pub(crate) const NAMES: [&str; 8] =
        ["TxRDYA", "Rx A", "break change A", "counter", "TxRDYB", "Rx B", "break change B", "input change"];
}

/// The input port's changes, IPCR: "change flags IP3-IP0, then levels; a read clears the flags".
pub mod ipcr {
    bits_of_one_register!();

    pub const CHANGE_IP3: Bits = Bits(0x80);
    pub const CHANGE_IP2: Bits = Bits(0x40);
    pub const CHANGE_IP1: Bits = Bits(0x20);
    pub const CHANGE_IP0: Bits = Bits(0x10);
    pub const IP3: Bits = Bits(0x08);
    pub const IP2: Bits = Bits(0x04);
    pub const IP1: Bits = Bits(0x02);
    pub const IP0: Bits = Bits(0x01);
}

/// The auxiliary control, ACR: bit 7 chooses the rates, bits 6-4 one of eight counter/timer modes, bits 3-0 the pins
/// whose change is ISR bit 7.
pub mod acr {
    bits_of_one_register!();

    /// the second row of document 01's rates
    pub const RATES_1: Bits = Bits(0x80);
    /// bits 6-4
    pub const MODE: Bits = Bits(0x70);
    pub const COUNTER_IP2: Bits = Bits(0x00);
    pub const COUNTER_TXCA: Bits = Bits(0x10);
    pub const COUNTER_TXCB: Bits = Bits(0x20);
    pub const COUNTER_TICKS_16: Bits = Bits(0x30);
    pub const TIMER_IP2: Bits = Bits(0x40);
    pub const TIMER_IP2_16: Bits = Bits(0x50);
    pub const TIMER_TICKS: Bits = Bits(0x60);
    pub const TIMER_TICKS_16: Bits = Bits(0x70);
    pub const CHANGE_IP3: Bits = Bits(0x08);
    pub const CHANGE_IP2: Bits = Bits(0x04);
    pub const CHANGE_IP1: Bits = Bits(0x02);
    pub const CHANGE_IP0: Bits = Bits(0x01);

    pub(crate) const MODES: [&str; 8] = [
        "counter on IP2",
        "counter on TxCA 1X",
        "counter on TxCB 1X",
        "counter on ticks/16",
        "timer on IP2",
        "timer on IP2/16",
        "timer on ticks",
        "timer on ticks/16",
    ];
}

/// A command, CRA and CRB: "bits 6-4 first, then 3-2 .. then 1-0". One of each three may be put together.
pub mod command {
    bits_of_one_register!();

    pub const POINT_TO_MR1: Bits = Bits(0x10);
    pub const RESET_RECEIVER: Bits = Bits(0x20);
    pub const RESET_TRANSMITTER: Bits = Bits(0x30);
    /// "clear overrun, block sums and the top character's marks"
    pub const RESET_ERRORS: Bits = Bits(0x40);
    pub const RESET_BREAK_CHANGE: Bits = Bits(0x50);
    pub const START_BREAK: Bits = Bits(0x60);
    pub const STOP_BREAK: Bits = Bits(0x70);
    pub const ENABLE_TRANSMITTER: Bits = Bits(0x04);
    pub const DISABLE_TRANSMITTER: Bits = Bits(0x08);
    pub const ENABLE_RECEIVER: Bits = Bits(0x01);
    pub const DISABLE_RECEIVER: Bits = Bits(0x02);
}

/// The first mode register, MR1A and MR1B. Bit 7, and bits 4-3 = 11, are refused with 5.
pub mod mr1 {
    bits_of_one_register!();

    /// "FFULL instead of RxRDY for ISR"
    pub const FFULL_INTERRUPT: Bits = Bits(0x40);
    pub const BLOCK_ERRORS: Bits = Bits(0x20);
    pub const WITH_PARITY: Bits = Bits(0x00);
    pub const FORCED_PARITY: Bits = Bits(0x08);
    pub const NO_PARITY: Bits = Bits(0x10);
    /// "odd, or forced high"
    pub const ODD: Bits = Bits(0x04);
    pub const DATA_BITS_5: Bits = Bits(0x00);
    pub const DATA_BITS_6: Bits = Bits(0x01);
    pub const DATA_BITS_7: Bits = Bits(0x02);
    pub const DATA_BITS_8: Bits = Bits(0x03);
}

/// The second mode register, MR2A and MR2B. Bit 5 is refused with 5.
pub mod mr2 {
    bits_of_one_register!();

    /// bits 7-6, the [mode](crate::mode)
    pub const MODE: Bits = Bits(0xc0);
    pub const NORMAL: Bits = Bits(crate::mode::NORMAL);
    pub const AUTOMATIC_ECHO: Bits = Bits(crate::mode::AUTOMATIC_ECHO);
    pub const LOCAL_LOOPBACK: Bits = Bits(crate::mode::LOCAL_LOOPBACK);
    pub const REMOTE_LOOPBACK: Bits = Bits(crate::mode::REMOTE_LOOPBACK);
    /// a character starts while the CTS pin is low: IP0 for A, IP1 for B
    pub const CTS: Bits = Bits(0x10);
    /// bits 3-0, the stop code
    pub const STOP_CODE: Bits = Bits(0x0f);
    /// "for 6 to 8" data bits, "9+c" sixteenths: one bit
    pub const ONE_STOP_BIT: Bits = Bits(0x07);
    /// "else 17+c": two bits
    pub const TWO_STOP_BITS: Bits = Bits(0x0f);
}

/// The output port's configuration, OPCR. Bits 1-0, and bit 3, are refused with 5.
pub mod opcr {
    bits_of_one_register!();

    /// the complement of ISR bit 4 on OP7
    pub const OP7_TX_RDY_B: Bits = Bits(0x80);
    /// the complement of ISR bit 0 on OP6
    pub const OP6_TX_RDY_A: Bits = Bits(0x40);
    /// the complement of ISR bit 5 on OP5
    pub const OP5_RX_B: Bits = Bits(0x20);
    /// the complement of ISR bit 1 on OP4
    pub const OP4_RX_A: Bits = Bits(0x10);
    /// "the timer output on OP3, or in counter mode the complement of ISR bit 3"
    pub const OP3_TIMER: Bits = Bits(0x04);
}

/// The levels of a [pin event](crate::Event::Pins), high where set.
pub mod pins {
    bits_of_one_register!();

    pub const IP0: Bits = Bits(0x01);
    pub const IP1: Bits = Bits(0x02);
    pub const IP2: Bits = Bits(0x04);
    pub const IP3: Bits = Bits(0x08);
    pub const IP4: Bits = Bits(0x10);
    pub const IP5: Bits = Bits(0x20);
    pub const RXDA: Bits = Bits(0x40);
    pub const RXDB: Bits = Bits(0x80);

    pub(crate) const NAMES: [&str; 8] = ["IP0", "IP1", "IP2", "IP3", "IP4", "IP5", "RxDA", "RxDB"];
}
