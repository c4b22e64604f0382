//! What asks for an interrupt.

use crate::channel::Channel;
use crate::chip::Chip;

impl Chip {
    /// "ISR bits 7-0: input change, break change B, Rx B, TxRDYB, counter, break change A, Rx A, TxRDYA."
    pub(crate) fn isr(&self) -> u8 {
        u8::from(self.inputs.isr_input_change(self.acr)) << 7
            | channel_bits(&self.b) << 4
            | u8::from(self.counter_timer.isr_bit_3()) << 3
            | channel_bits(&self.a)
    }

    /// "IRQ is asserted when ISR and IMR share a set bit"
    pub(crate) fn irq_is_asserted(&self, isr: u8) -> bool {
        isr & self.imr != 0
    }
}

/// Break change, Rx and TxRDY of one channel, as bits 2-0.
fn channel_bits(channel: &Channel) -> u8 {
    u8::from(channel.receiver.break_change()) << 2
        | u8::from(channel.isr_receiver()) << 1
        | u8::from(channel.txrdy())
}
