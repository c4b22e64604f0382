//! The sixteen registers by name. Document 01: "Read / write".

/// A register. One number has a name for what a read finds there and another for what a write does, as on the chip; the
/// names say which they are for.
///
/// ```
/// use duart::{bits::{command, sr}, Duart, Event, Refused, Register};
///
/// # fn main() -> Result<(), Refused> {
/// let mut chip = Duart::fresh();
/// chip.step(Event::write(Register::CRA, command::ENABLE_TRANSMITTER))?;
/// assert!((sr::TX_EMT | sr::TX_RDY).are_in(chip.step(Event::read(Register::SRA))?.data));
/// # Ok(())
/// # }
/// ```
#[derive(Clone, Copy, Debug, PartialEq, Eq, Hash)]
pub struct Register(u8);

impl Register {
    /// read and write: MR1 of A, then MR2
    pub const MRA: Register = Register(0);
    /// read: the status of A, [bits](crate::bits::sr)
    pub const SRA: Register = Register(1);
    /// write: the clocks of A, the receiver's code in bits 7-4 and the transmitter's in 3-0
    pub const CSRA: Register = Register(1);
    /// write: a [command](crate::bits::command) for A; a read is refused with 3
    pub const CRA: Register = Register(2);
    /// read: the receive buffer of A
    pub const RBA: Register = Register(3);
    /// write: the transmit buffer of A
    pub const TBA: Register = Register(3);
    /// read: the input port's changes, [bits](crate::bits::ipcr)
    pub const IPCR: Register = Register(4);
    /// write: the auxiliary control, [bits](crate::bits::acr)
    pub const ACR: Register = Register(4);
    /// read: the interrupt status, [bits](crate::bits::isr)
    pub const ISR: Register = Register(5);
    /// write: the interrupt mask, the bits of ISR
    pub const IMR: Register = Register(5);
    /// read: the count's high byte
    pub const CUR: Register = Register(6);
    /// write: the preload's high byte
    pub const CTUR: Register = Register(6);
    /// read: the count's low byte
    pub const CLR: Register = Register(7);
    /// write: the preload's low byte
    pub const CTLR: Register = Register(7);
    /// read and write: MR1 of B, then MR2
    pub const MRB: Register = Register(8);
    /// read: the status of B
    pub const SRB: Register = Register(9);
    /// write: the clocks of B
    pub const CSRB: Register = Register(9);
    /// write: a command for B; a read is refused with 3
    pub const CRB: Register = Register(10);
    /// read: the receive buffer of B
    pub const RBB: Register = Register(11);
    /// write: the transmit buffer of B
    pub const TBB: Register = Register(11);
    /// read and write: the interrupt vector
    pub const IVR: Register = Register(12);
    /// read: the input port; bits 7 and 6 read 1
    pub const IP: Register = Register(13);
    /// write: the output port's configuration, [bits](crate::bits::opcr)
    pub const OPCR: Register = Register(13);
    /// read: starts the counter
    pub const START_COUNTER: Register = Register(14);
    /// write: sets output bits, whose pins go low
    pub const SET_OUTPUT_BITS: Register = Register(14);
    /// read: stops the counter, and clears ISR bit 3
    pub const STOP_COUNTER: Register = Register(15);
    /// write: resets output bits, whose pins go high
    pub const RESET_OUTPUT_BITS: Register = Register(15);

    /// 0 to 15.
    #[must_use]
    pub const fn number(self) -> u8 {
        self.0
    }
}

impl From<Register> for u8 {
    fn from(register: Register) -> u8 {
        register.0
    }
}

#[cfg(test)]
mod tests {
    use super::Register;
    use crate::bits::{acr, command, ipcr, isr, opcr, sr};
    use crate::{Duart, Event, EventRecord};

    fn write(chip: &mut Duart, register: Register, byte: impl Into<u8>) {
        assert!(chip.step(Event::write(register, byte)).is_ok(), "{register:?}");
    }

    fn read(chip: &mut Duart, register: Register) -> u8 {
        chip.step(Event::read(register)).unwrap_or_else(|refused| panic!("{register:?}: {refused}")).data
    }

    #[test]
    fn a_name_makes_the_record_that_its_number_makes() {
        let record = EventRecord { kind: 2, reg: 12, byte: 0x41 };
        assert_eq!(EventRecord::from(Event::write(Register::IVR, 0x41)), record);
        assert_eq!(Event::read(Register::STOP_COUNTER), Event::Read(15));
        assert_eq!(u8::from(Register::RBB), 11);
    }

    #[test]
    fn the_names_count_up() {
        let first = [Register::MRA, Register::SRA, Register::CRA, Register::RBA, Register::IPCR, Register::ISR];
        assert_eq!(first.map(u8::from), [0, 1, 2, 3, 4, 5]);
        let next = [Register::CUR, Register::CLR, Register::MRB, Register::SRB, Register::CRB, Register::RBB];
        assert_eq!(next.map(u8::from), [6, 7, 8, 9, 10, 11]);
        let last = [Register::IVR, Register::IP, Register::START_COUNTER, Register::STOP_COUNTER];
        assert_eq!(last.map(u8::from), [12, 13, 14, 15]);
        let written = [Register::CSRA, Register::TBA, Register::ACR, Register::IMR, Register::CTUR, Register::CTLR];
        assert_eq!(written.map(u8::from), [1, 3, 4, 5, 6, 7]);
        let written = [Register::CSRB, Register::TBB, Register::OPCR].map(u8::from);
        assert_eq!(written, [9, 11, 13]);
        assert_eq!([Register::SET_OUTPUT_BITS, Register::RESET_OUTPUT_BITS].map(u8::from), [14, 15]);
    }

    /// What is written stands in the field of that name.
    #[test]
    fn a_write_goes_where_its_name_says() {
        let mut chip = Duart::fresh();
        let writes = [
            (Register::MRA, 1),
            (Register::MRA, 2),
            (Register::CSRA, 3),
            (Register::TBA, 0),
            (Register::ACR, 4),
            (Register::IMR, 5),
            (Register::CTUR, 6),
            (Register::CTLR, 7),
            (Register::MRB, 0x42),
            (Register::MRB, 9),
            (Register::CSRB, 10),
            (Register::IVR, 12),
            (Register::OPCR, 0x40),
            (Register::SET_OUTPUT_BITS, 0x0f),
            (Register::RESET_OUTPUT_BITS, 0x03),
        ];
        writes.into_iter().for_each(|(register, byte)| write(&mut chip, register, byte));
        let front = &chip.device().front;
        assert_eq!([front.a.mr1, front.a.mr2, front.a.csr], [1, 2, 3]);
        assert_eq!([front.b.mr1, front.b.mr2, front.b.csr], [0x42, 9, 10]);
        assert_eq!([front.acr, front.imr, front.ivr, front.outputs.opcr, front.outputs.bits], [4, 5, 12, 0x40, 0x0c]);
        assert_eq!(front.timer.preload, 0x0607);
    }

    #[test]
    fn commands_and_buffers_are_of_their_channel() {
        let mut chip = Duart::fresh();
        write(&mut chip, Register::CRA, command::ENABLE_TRANSMITTER | command::ENABLE_RECEIVER);
        write(&mut chip, Register::CRB, command::ENABLE_TRANSMITTER);
        write(&mut chip, Register::TBA, 0x2a);
        write(&mut chip, Register::TBB, 0x2b);
        let front = chip.device().front;
        assert_eq!((front.a.enabled, front.b.enabled), (true, false));
        assert_eq!((front.a.transmitter.holding, front.b.transmitter.holding), (0x2a, 0x2b));
        assert_eq!(read(&mut chip, Register::SRA), 0, "the holding place is full");
        write(&mut chip, Register::CRB, command::RESET_TRANSMITTER | command::ENABLE_TRANSMITTER);
        assert_eq!(read(&mut chip, Register::SRB), (sr::TX_EMT | sr::TX_RDY).byte());
        assert_eq!(read(&mut chip, Register::ISR), isr::TX_RDY_B.byte());
        write(&mut chip, Register::CRA, command::POINT_TO_MR1);
        assert!(!chip.device().front.a.moved);
    }

    #[test]
    fn the_timer_and_the_ports_have_the_names_they_should() {
        let mut chip = Duart::fresh();
        write(&mut chip, Register::CTLR, 2);
        write(&mut chip, Register::ACR, acr::TIMER_TICKS | acr::CHANGE_IP1);
        write(&mut chip, Register::OPCR, opcr::OP3_TIMER);
        assert_eq!(read(&mut chip, Register::START_COUNTER), 0);
        let lines = [(); 4].map(|()| chip.step_raw(Event::Tick).op & 0x08 != 0);
        assert_eq!(lines, [true, false, false, true], "OP3 is the timer output");
        assert_eq!((read(&mut chip, Register::CUR), read(&mut chip, Register::CLR)), (0, 2));
        assert_eq!(read(&mut chip, Register::ISR), isr::COUNTER.byte());
        assert_eq!((read(&mut chip, Register::STOP_COUNTER), read(&mut chip, Register::ISR)), (0, 0));
        assert!(chip.step(Event::Pins(0xfd)).is_ok());
        assert_eq!(read(&mut chip, Register::IP), 0xfd);
        assert_eq!(read(&mut chip, Register::ISR), isr::INPUT_CHANGE.byte());
        assert_eq!(read(&mut chip, Register::IPCR), (ipcr::CHANGE_IP1 | ipcr::IP3 | ipcr::IP2 | ipcr::IP0).byte());
        assert_eq!(read(&mut chip, Register::IPCR), 0x0d, "a read clears the flags");
    }
}
