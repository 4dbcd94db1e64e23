//! "Epoch numbers and operation numbers are counted apart; neither may be given where the other
//! belongs."

/// An epoch. B starts in epoch 0, P in epoch 1.
#[derive(Clone, Copy, Debug, PartialEq, Eq, PartialOrd, Ord)]
pub struct Epoch(pub u16);

impl Epoch {
    pub const LAST: Epoch = Epoch(65_535);

    /// Only asked of an epoch before the last: at 65,535 PEND and BEND are refused with 7.
    pub fn next(self) -> Epoch {
        Epoch(self.0 + 1)
    }
}

/// An operation on a device. The first is 1; 0 stands where there is none.
#[derive(Clone, Copy, Debug, PartialEq, Eq, PartialOrd, Ord)]
pub struct Operation(pub u16);

impl Operation {
    pub const NONE: Operation = Operation(0);
    pub const LAST: Operation = Operation(65_535);

    /// Only asked of a number before the last: at 65,535 START starts nothing.
    pub fn next(self) -> Operation {
        Operation(self.0 + 1)
    }
}
