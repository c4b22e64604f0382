//! Why something was refused: the numbers of document 01's table by name, order 5's 9, which is order 6's too, and order 7's
//! 10 and 11.

use crate::Seen;
use core::fmt;

#[cfg(core_error)]
use core::error::Error;
#[cfg(all(not(core_error), feature = "std"))]
use std::error::Error;

/// A number of an answer that is not 0.
#[derive(Clone, Copy, Debug, PartialEq, Eq, Hash)]
pub enum Refusal {
    /// 1: "the state given is unsound"
    Unsound,
    /// 2: "register above 15"
    RegisterAbove15,
    /// 3: "read of register 2 or 10"
    ForbiddenRead,
    /// 4: "command whose bits 3-2 or 1-0 are 11"
    ForbiddenCommand,
    /// 5: "a write (or frame request) choosing a setting not modelled"; (order 7) MR1 of a capture, and "a code above 12 too"
    NotModelled,
    /// 6: "acknowledge while IRQ is not asserted"
    NotAsserted,
    /// 7: "the new state would be unsound", which is proved never to be given
    NewUnsound,
    /// 8: "lent space shorter than the frame", (order 5) "answer space shorter than the list", (order 6) "short
    /// space" for a dump, or (order 7) "either log too short"
    SpaceShort,
    /// 9 (order 5): "a list or budget over its limit"; (order 6) "a longer list" than a dump takes
    OverLimit,
    /// 10 (order 7): "text outside the subset or a named wire missing"
    OutsideSubset,
    /// 11 (order 7): "a time not later than the one before"
    TimeNotLater,
    /// A number that none of these has. The archive gives none; a record that was made by hand may have one.
    Other(u8),
}

impl Refusal {
    /// Those that have a name, in the order of their numbers, from 1 on.
    pub const ALL: [Refusal; 11] = [
        Refusal::Unsound,
        Refusal::RegisterAbove15,
        Refusal::ForbiddenRead,
        Refusal::ForbiddenCommand,
        Refusal::NotModelled,
        Refusal::NotAsserted,
        Refusal::NewUnsound,
        Refusal::SpaceShort,
        Refusal::OverLimit,
        Refusal::OutsideSubset,
        Refusal::TimeNotLater,
    ];

    /// What a number says: none for 0, accepted.
    #[must_use]
    pub fn of_number(number: u8) -> Option<Refusal> {
        let place = usize::from(number.checked_sub(1)?);
        Some(Refusal::ALL.get(place).copied().unwrap_or(Refusal::Other(number)))
    }

    /// The number in the answer.
    #[must_use]
    pub const fn number(self) -> u8 {
        match self {
            Refusal::Unsound => 1,
            Refusal::RegisterAbove15 => 2,
            Refusal::ForbiddenRead => 3,
            Refusal::ForbiddenCommand => 4,
            Refusal::NotModelled => 5,
            Refusal::NotAsserted => 6,
            Refusal::NewUnsound => 7,
            Refusal::SpaceShort => 8,
            Refusal::OverLimit => 9,
            Refusal::OutsideSubset => 10,
            Refusal::TimeNotLater => 11,
            Refusal::Other(number) => number,
        }
    }
}

impl fmt::Display for Refusal {
    fn fmt(&self, to: &mut fmt::Formatter) -> fmt::Result {
        let why = match self {
            Refusal::Unsound => "the state given is unsound",
            Refusal::RegisterAbove15 => "a register above 15",
            Refusal::ForbiddenRead => "a read of register 2 or 10",
            Refusal::ForbiddenCommand => "a command whose bits 3-2 or 1-0 are 11",
            Refusal::NotModelled => "a setting that is not modelled",
            Refusal::NotAsserted => "an acknowledge while IRQ is not asserted",
            Refusal::NewUnsound => "the new state would be unsound",
            Refusal::SpaceShort => "the space lent is too short",
            Refusal::OverLimit => "a list or a budget over its limit",
            Refusal::OutsideSubset => "a text outside the subset, or a wire that it has not",
            Refusal::TimeNotLater => "a time that is not later than the one before",
            Refusal::Other(_) => "a number without a meaning",
        };
        write!(to, "refused with {}: {why}", self.number())
    }
}

/// A refused event, or a refused [run](crate::Duart::run_until_irq): why, and the record that came with it. The chip is
/// as it was.
#[derive(Clone, Copy, Debug, PartialEq, Eq)]
pub struct Refused {
    pub refusal: Refusal,
    /// data 0, stale, and the lines as the chip drives them (for 1, all lines 0)
    pub seen: Seen,
}

impl fmt::Display for Refused {
    fn fmt(&self, to: &mut fmt::Formatter) -> fmt::Result {
        self.refusal.fmt(to)
    }
}

/// So that `?` takes a refused event where a function answers a [`Refusal`], as [`Duart::poll`](crate::Duart::poll)
/// does.
impl From<Refused> for Refusal {
    fn from(refused: Refused) -> Refusal {
        refused.refusal
    }
}

#[cfg(any(core_error, feature = "std"))]
impl Error for Refusal {}

#[cfg(any(core_error, feature = "std"))]
impl Error for Refused {}

#[cfg(test)]
mod tests {
    use super::{Refusal, Refused};
    use crate::{Duart, Event};

    #[test]
    fn each_number_has_its_refusal() {
        assert_eq!(Refusal::of_number(0), None);
        for (place, refusal) in Refusal::ALL.into_iter().enumerate() {
            assert_eq!(usize::from(refusal.number()), place + 1);
        }
        for number in 1..=255 {
            assert_eq!(Refusal::of_number(number).map(Refusal::number), Some(number));
        }
        assert_eq!(Refusal::of_number(12), Some(Refusal::Other(12)));
    }

    /// The events that document 01's rows 2 to 6 speak of.
    #[test]
    fn each_row_of_an_event_is_answered_by_its_name() {
        let rows = [
            (Event::Read(16), Refusal::RegisterAbove15),
            (Event::Write(255, 0), Refusal::RegisterAbove15),
            (Event::Read(2), Refusal::ForbiddenRead),
            (Event::Read(10), Refusal::ForbiddenRead),
            (Event::Write(2, 0x0c), Refusal::ForbiddenCommand),
            (Event::Write(10, 0x03), Refusal::ForbiddenCommand),
            (Event::Write(0, 0x80), Refusal::NotModelled),
            (Event::Write(13, 0x01), Refusal::NotModelled),
            (Event::Acknowledge, Refusal::NotAsserted),
        ];
        for (event, refusal) in rows {
            assert_eq!(Duart::fresh().step(event).map_err(Refusal::from), Err(refusal), "{event:?}");
        }
    }

    #[test]
    fn it_says_its_number_and_why() {
        let refused = Duart::fresh().step(Event::Read(2)).expect_err("register 2 is not read");
        assert_eq!(refused.to_string(), "refused with 3: a read of register 2 or 10");
        assert_eq!(Refusal::OverLimit.to_string(), "refused with 9: a list or a budget over its limit");
        assert_eq!(Refusal::Other(77).to_string(), "refused with 77: a number without a meaning");
    }

    #[cfg(any(core_error, feature = "std"))]
    #[test]
    fn both_are_errors() {
        use crate::Seen;
        use std::error::Error;

        fn ask(chip: &mut Duart) -> Result<Seen, Box<dyn Error>> {
            Ok(chip.step(Event::Acknowledge)?)
        }
        fn ask_for_why(chip: &mut Duart) -> Result<Seen, Refusal> {
            Ok(chip.step(Event::Acknowledge)?)
        }
        let mut chip = Duart::fresh();
        let error = ask(&mut chip).expect_err("IRQ is not asserted");
        assert_eq!(error.downcast_ref::<Refused>().map(|refused| refused.refusal), Some(Refusal::NotAsserted));
        assert_eq!(ask_for_why(&mut chip), Err(Refusal::NotAsserted));
        let why: Box<dyn Error> = Refusal::Unsound.into();
        assert!(why.to_string().starts_with("refused with 1"));
    }
}
