//! The register map: "Read / write: 0 MR1 then MR2 (both); 1 SR / CSR; 2 none / command; 3 receive /
//! transmit buffer; 4 IPCR / ACR; 5 ISR / IMR; 6, 7 count high, low / preload high, low; 8-11 as 0-3 for
//! channel B; 12 IVR (both); 13 input port / OPCR; 14 start counter / set OP bits; 15 stop counter / reset
//! OP bits."

use crate::channel::Channel;
use crate::chip::Chip;

impl Chip {
    pub(crate) fn read(&mut self, register: u8) -> u8 {
        let [count_high, count_low] = self.counter_timer.count().to_be_bytes();
        match register {
            0..=3 => read_channel(&mut self.a, register),
            4 => self.inputs.read_ipcr(),
            5 => self.isr(),
            6 => count_high,
            7 => count_low,
            8..=11 => read_channel(&mut self.b, register - 8),
            12 => self.ivr,
            13 => self.inputs.read(),
            // "Start and stop read 0."
            14 => {
                self.counter_timer.start();
                0
            }
            15 => {
                self.counter_timer.stop();
                0
            }
            _ => unreachable!("a register above 15 is refused with 2"),
        }
    }

    pub(crate) fn write(&mut self, register: u8, byte: u8) {
        let acr_bit_7 = self.acr_bit_7();
        match register {
            0..=3 => write_channel(&mut self.a, register, byte, acr_bit_7),
            4 => self.write_acr(byte),
            5 => self.imr = byte,
            6 => self.counter_timer.write_preload_high(byte),
            7 => self.counter_timer.write_preload_low(byte),
            8..=11 => write_channel(&mut self.b, register - 8, byte, acr_bit_7),
            12 => self.ivr = byte,
            13 => self.outputs.write_opcr(byte),
            14 => self.outputs.set_bits(byte),
            15 => self.outputs.reset_bits(byte),
            _ => unreachable!("a register above 15 is refused with 2"),
        }
    }

    fn acr_bit_7(&self) -> bool {
        self.acr >> 7 == 1
    }

    /// "a change of ACR bit 7 restarts all four."
    fn write_acr(&mut self, acr: u8) {
        let bit_7_before = self.acr_bit_7();
        self.acr = acr;
        if self.acr_bit_7() != bit_7_before {
            self.a.restart_clocks(self.acr_bit_7());
            self.b.restart_clocks(self.acr_bit_7());
        }
        self.counter_timer.write_acr(acr);
    }
}

fn read_channel(channel: &mut Channel, register: u8) -> u8 {
    match register {
        0 => channel.read_mode(),
        1 => channel.status(),
        3 => channel.receiver.queue.read(),
        _ => unreachable!("a read of register 2 or 10 is refused with 3"),
    }
}

fn write_channel(channel: &mut Channel, register: u8, byte: u8, acr_bit_7: bool) {
    match register {
        0 => channel.write_mode(byte),
        1 => channel.write_csr(byte, acr_bit_7),
        2 => channel.command(byte),
        _ => channel.transmitter.write(byte),
    }
}
