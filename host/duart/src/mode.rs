//! The modes of a channel, MR2 bits 7-6, written together with the rest of MR2. Sentences in double quotes are order 2's.
//!
//! "A mode change drops what is being sent (a break too; the holding place stays) or put together, leaves an enabled receiver as
//! just enabled, and holds TxD high until the next pulse." The same two bits written again are no mode change.
//!
//! What a start-up test meets first: in local loopback a byte that is written before one pulse of the transmitter's clock has
//! passed since mode and enable is not received, because a receiver just enabled must sample a high before a low counts (a later
//! low of it may be taken for a start, and another character comes). Let one pulse pass, then write. The receiver must be
//! enabled, as in normal mode. `examples/loopback.rs` is such a test.

/// The channel sends on TxD and receives from RxD.
pub const NORMAL: u8 = 0x00;

/// "no character or break starts; at each pulse of an enabled receiver TxD takes the sampled level (high while disabled), the
/// receiver works as usual, TxRDY and TxEMT read 0"
pub const AUTOMATIC_ECHO: u8 = 0x40;

/// "the receiver takes the transmitter's level and its clock, TxD stays high, RxD is ignored, CTS still counts"
pub const LOCAL_LOOPBACK: u8 = 0x80;

/// "the same echo, and no character is put together"
pub const REMOTE_LOOPBACK: u8 = 0xc0;
