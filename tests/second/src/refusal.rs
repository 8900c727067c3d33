//! What a refusal carries. "Refusals carry number and place, else nothing."

/// Why something is refused. Finer than the paper's number, so that the number can be split later.
#[derive(Clone, Copy, Debug, PartialEq, Eq, PartialOrd, Ord, Hash)]
pub enum Cause {
    /// "number cut short or missing", "text of a sheet cut short"
    CutShort,
    /// "not shortest"
    NotShortest,
    /// "over 65,535"
    TooLarge,
    /// "bytes left over"
    LeftOver,
    /// "table, inputs or sheet: a value not allowed above"
    ValueNotAllowed,
    /// "requirement: tag unknown or not allowed"
    TagNotAllowed,
    /// "atom above 31"
    AtomAbove31,
    /// "node or depth limit passed"
    LimitPassed,
    /// "no rule for the action"
    NoRule,
    /// "65th action"
    TooManyActions,
    /// "a state numbered above 4,096 would arise"
    TooManyStates,
    /// "end state differs"
    EndStateDiffers,
    /// "trace length 0, over 20,480 or not a multiple of 5"
    TraceLength,
    /// "loop start not below the position count"
    LoopStart,
    /// "bad phase or followed by a phase not allowed"
    Phase,
    /// "no Output in the loop"
    NoOutputInLoop,
    /// "a lent buffer too short"
    BufferTooShort,
    /// "name absent"
    NameAbsent,
}

impl Cause {
    /// The column "No." of the table "Numbers of refusal". This is the only place that knows the paper's numbers.
    pub fn number(self) -> u16 {
        match self {
            Cause::CutShort => 1,
            Cause::NotShortest => 1,
            Cause::TooLarge => 1,
            Cause::LeftOver => 1,
            Cause::ValueNotAllowed => 2,
            Cause::TagNotAllowed => 3,
            Cause::AtomAbove31 => 3,
            Cause::LimitPassed => 4,
            Cause::NoRule => 5,
            Cause::TooManyActions => 6,
            Cause::TooManyStates => 7,
            Cause::EndStateDiffers => 8,
            Cause::TraceLength => 9,
            Cause::LoopStart => 9,
            Cause::Phase => 9,
            Cause::NoOutputInLoop => 9,
            Cause::BufferTooShort => 10,
            Cause::NameAbsent => 11,
        }
    }
}

#[derive(Clone, Copy, Debug, PartialEq, Eq, PartialOrd, Ord, Hash)]
pub struct Refusal {
    pub cause: Cause,
    pub place: usize,
}

impl Refusal {
    pub fn new(cause: Cause, place: usize) -> Refusal {
        Refusal { cause, place }
    }

    /// The paper's number of this refusal.
    pub fn number(&self) -> u16 {
        self.cause.number()
    }
}
