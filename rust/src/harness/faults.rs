//! The faults that the stand-in can have.

#[derive(Clone, Copy, PartialEq, Eq, Debug)]
pub enum Fault {
    None,
    /// A place one too high where there is one.
    Place,
    /// A place given where there is none.
    PlaceOfStop,
    /// A step too many in answers.
    Steps,
    /// Steps forgotten with a stop.
    StepsOfStop,
    /// A length one too high in answers.
    Length,
    /// A refusal for its neighbour.
    Number,
    /// The last word to be wiped is not.
    WordLeft,
    /// The first word not to be wiped is.
    WordBeyond,
    /// Words wiped though a slice is too short.
    WipedWhenShort,
    /// A byte of output touched by a refusal.
    OutputOfRefusal,
    /// A byte of output touched after an answer's end.
    OutputBeyond,
    /// The last byte of an answer wrong.
    OutputWrong,
    /// A slice one word short taken for long enough.
    ShortWords,
    /// An output one byte short taken for long enough.
    ShortOutput,
    /// Only the lower 32 bits of a rule number read.
    RuleCut,
    /// Only the lower 8 bits of an object number read.
    ObjectCut,
    /// A report that just fits refused, or one that just does not, cut.
    ReportRoom,
    /// The last of the types without its line feed.
    LastLineFeed,
    /// Types written as rules are typed, also where a later one does not type.
    TypesOfRefusal,
    /// An answer though an earlier rule than the one asked for does not type.
    EarlierRule,
    /// An answer though a later rule than the one asked for does not type.
    LaterRule,
    /// The rule asked for refused before an earlier one that does not type.
    AskedFirst,
    /// 14 for a rule before 9 to 13.
    AbsentRuleFirst,
    /// 14 for an object before 9 to 13.
    AbsentObjectFirst,
    /// 15 before 9 to 13.
    OtherClassFirst,
    /// A call upward taken for one of an unknown definition.
    UpwardUnknown,
    /// An unknown definition taken for another part that is not there.
    UnknownPart,
    /// The depth of called bodies forgotten.
    BareDepth,
    /// A body taken whatever its type.
    BodyType,
    /// Only definitions typed that a rule reaches.
    UnusedDefinition,
    /// Rules typed before definitions.
    RulesFirst,
    /// A whole number spelled as a Real taken.
    WholeTaken,
    /// Minus zero spelled as a Real taken.
    MinusZeroTaken,
    /// A Real with capital digits taken.
    CapitalTaken,
    /// An infinity taken for a misspelling.
    InfinityMisspelt,
    /// A NaN taken.
    NanTaken,
    /// An infinity refused before a whole number.
    LimitFirst,
    /// A Real taken into a row of Integers.
    RealForInteger,
    /// Integers ordered before Reals, whatever their numbers.
    KindsApart,
    /// `div` and `mod` taken with Reals.
    DivisionOfReal,
    /// Integers that are typed Real not widened.
    ByValues,
    /// A whole result left a Real.
    WholeLeft,
    /// A minus zero left as it is.
    MinusZeroLeft,
    /// An infinite result given as a value.
    InfiniteValue,
    /// A zero divisor taken for an infinite result.
    ZeroDivisorStop,
    /// A tie rounded to odd.
    TieAway,
    /// What is next to a tie rounded as the tie is.
    TieNear,
    /// A result too small to be normal taken for 0.
    SmallAsZero,
    /// A half cut off.
    HalfCut,
    /// A result past the Integer range taken for a stop.
    PastRangeStop,
    /// A result that rounds to the largest number taken for infinite.
    LargestInfinite,
    /// 2,048 bytes of output taken for enough by reading.
    OldMinimum,
}

impl Fault {
    pub const ALL: [Fault; 52] = [
        Fault::Place,
        Fault::PlaceOfStop,
        Fault::Steps,
        Fault::StepsOfStop,
        Fault::Length,
        Fault::Number,
        Fault::WordLeft,
        Fault::WordBeyond,
        Fault::WipedWhenShort,
        Fault::OutputOfRefusal,
        Fault::OutputBeyond,
        Fault::OutputWrong,
        Fault::ShortWords,
        Fault::ShortOutput,
        Fault::RuleCut,
        Fault::ObjectCut,
        Fault::ReportRoom,
        Fault::LastLineFeed,
        Fault::TypesOfRefusal,
        Fault::EarlierRule,
        Fault::LaterRule,
        Fault::AskedFirst,
        Fault::AbsentRuleFirst,
        Fault::AbsentObjectFirst,
        Fault::OtherClassFirst,
        Fault::UpwardUnknown,
        Fault::UnknownPart,
        Fault::BareDepth,
        Fault::BodyType,
        Fault::UnusedDefinition,
        Fault::RulesFirst,
        Fault::WholeTaken,
        Fault::MinusZeroTaken,
        Fault::CapitalTaken,
        Fault::InfinityMisspelt,
        Fault::NanTaken,
        Fault::LimitFirst,
        Fault::RealForInteger,
        Fault::KindsApart,
        Fault::DivisionOfReal,
        Fault::ByValues,
        Fault::WholeLeft,
        Fault::MinusZeroLeft,
        Fault::InfiniteValue,
        Fault::ZeroDivisorStop,
        Fault::TieAway,
        Fault::TieNear,
        Fault::SmallAsZero,
        Fault::HalfCut,
        Fault::PastRangeStop,
        Fault::LargestInfinite,
        Fault::OldMinimum,
    ];
}
