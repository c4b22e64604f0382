//! What may be wrong with a capture, one thing at a time: each is made of a drawn one that is accepted, and is then refused by
//! the number beside it. A program that lets the thing through answers otherwise. capture_altering.rs makes them.

/// One thing that is wrong.
#[derive(Clone, Copy, Debug, PartialEq, Eq)]
pub enum Edit {
    Mr1Bit7,
    Mr1Bits43,
    CodeTimer,
    CodeAbove15,
    FiveAndBroken,
    CodeTwice,
    NameTwice,
    SeventeenWires,
    NoWire,
    LongName,
    EmptyName,
    NameWithSpace,
    CharacterOutside,
    HeaderLineGone,
    HeaderByte,
    LeadingZero,
    TimeAbove,
    TimeOver32Bits,
    TwentyDigits,
    NoDigits,
    SignedTime,
    ValueFirst,
    NoLastLf,
    BlankLine,
    CarriageReturn,
    EveryCarriageReturn,
    LongLine,
    TrailingSpace,
    LeadingSpace,
    ValueX,
    ValueZ,
    UnknownCode,
    TwoOnALine,
    TimeWithValue,
    Vector,
    DumpVars,
    Comment,
    ToolLine,
    ValueAlone,
    EmptyText,
    MissingA,
    MissingB,
    NamePrefix,
    NameLonger,
    NameMuchLonger,
    NameOfNone,
    CodeForName,
    RepeatedTime,
    RepeatedBefore,
    RepeatedAtTheEnd,
    EarlierTime,
    RepeatedThenBroken,
    RepeatedThenAbove,
    RepeatedAndMissing,
}

/// Each edit with the number that it is refused by, and its name.
pub const EDITS: [(Edit, u8, &str); 54] = [
    (Edit::Mr1Bit7, 5, "MR1 bit 7"),
    (Edit::Mr1Bits43, 5, "MR1 bits 4-3 = 11"),
    (Edit::CodeTimer, 5, "a code of 13 to 15"),
    (Edit::CodeAbove15, 5, "a code above 15"),
    (Edit::FiveAndBroken, 5, "5, and a broken text"),
    (Edit::CodeTwice, 10, "a code twice"),
    (Edit::NameTwice, 10, "a name twice"),
    (Edit::SeventeenWires, 10, "seventeen wires"),
    (Edit::NoWire, 10, "no wire"),
    (Edit::LongName, 10, "a name of 33 characters"),
    (Edit::EmptyName, 10, "a name of none"),
    (Edit::NameWithSpace, 10, "a name with a space"),
    (Edit::CharacterOutside, 10, "a character outside ! to ~"),
    (Edit::HeaderLineGone, 10, "a line of the header gone"),
    (Edit::HeaderByte, 10, "a byte of the header altered"),
    (Edit::LeadingZero, 10, "a time with a leading zero"),
    (Edit::TimeAbove, 10, "a time above the last"),
    (Edit::TimeOver32Bits, 10, "a time over 32 bits"),
    (Edit::TwentyDigits, 10, "a time of twenty digits"),
    (Edit::NoDigits, 10, "a time of no digits"),
    (Edit::SignedTime, 10, "a time with a sign"),
    (Edit::ValueFirst, 10, "a value before the first time"),
    (Edit::NoLastLf, 10, "no last LF"),
    (Edit::BlankLine, 10, "a blank line"),
    (Edit::CarriageReturn, 10, "a carriage return"),
    (Edit::EveryCarriageReturn, 10, "a carriage return on each line"),
    (Edit::LongLine, 10, "256 bytes more on a line"),
    (Edit::TrailingSpace, 10, "a space behind a line"),
    (Edit::LeadingSpace, 10, "a space before a line"),
    (Edit::ValueX, 10, "a value of x"),
    (Edit::ValueZ, 10, "a value of z"),
    (Edit::UnknownCode, 10, "a value of another code"),
    (Edit::TwoOnALine, 10, "two values on a line"),
    (Edit::TimeWithValue, 10, "a time and a value on a line"),
    (Edit::Vector, 10, "a vector or a real"),
    (Edit::DumpVars, 10, "$dumpvars and others"),
    (Edit::Comment, 10, "$comment"),
    (Edit::ToolLine, 10, "$date, $version or $comment in the header"),
    (Edit::ValueAlone, 10, "a value and no code"),
    (Edit::EmptyText, 10, "no text"),
    (Edit::MissingA, 10, "A's wire missing"),
    (Edit::MissingB, 10, "B's wire missing"),
    (Edit::NamePrefix, 10, "the beginning of a name"),
    (Edit::NameLonger, 10, "a name and more"),
    (Edit::NameMuchLonger, 10, "a name and 256 characters"),
    (Edit::NameOfNone, 10, "no name given"),
    (Edit::CodeForName, 10, "a code for a name"),
    (Edit::RepeatedTime, 11, "a time twice, then its values"),
    (Edit::RepeatedBefore, 11, "a time twice, then a later one"),
    (Edit::RepeatedAtTheEnd, 11, "the last time twice"),
    (Edit::EarlierTime, 11, "a time sooner than the last"),
    (Edit::RepeatedThenBroken, 10, "a time twice, and a broken line"),
    (Edit::RepeatedThenAbove, 10, "a time twice, and one above the last"),
    (Edit::RepeatedAndMissing, 10, "a time twice, and a wire missing"),
];

#[cfg(test)]
mod tests {
    use super::EDITS;
    use crate::capture_texts::Drawn;
    use crate::generator::Generator;

    #[test]
    fn the_names_stand_in_the_order_of_the_enum() {
        for (place, (edit, _, _)) in EDITS.iter().enumerate() {
            assert_eq!(*edit as usize, place);
        }
    }

    /// All but the few in which what is altered is another name of the text.
    #[test]
    fn each_is_refused_by_its_number() {
        let mut draws = Generator::with_seed(1);
        for (edit, number, name) in EDITS {
            let drawn = (0..60).map(|_| Drawn::drawn(&mut draws)).collect::<Vec<Drawn>>();
            let made = drawn.iter().filter_map(|drawn| edit.made(drawn, &mut draws));
            let told: Vec<u8> = made.map(|asked| asked.characters().err().unwrap_or(0)).collect();
            let others = told.iter().filter(|told| **told != number).count();
            assert!(told.len() > 10 && others * 8 < told.len(), "{name}: {told:?}");
        }
    }
}
