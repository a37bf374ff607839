//! The faults that the comparison must notice.

/// Makes the type of the faults and the list of those without numbers.
macro_rules! faults {
    ($($fault:ident,)*) => {
        /// One fault of a library, or none.
        #[derive(Clone, Copy, Debug, PartialEq, Eq)]
        pub enum Wrong {
            Nothing,
            /// Where both hold, refuses by the first number and not by the second.
            Before(u8, u8),
            /// Does not look at this clause of refusal 12.
            Clause(usize),
            /// Takes the least bad number of this range of refusal 12 for good.
            RangeTooLong(usize),
            /// Takes the largest good number of this range for bad.
            RangeTooShort(usize),
            $($fault,)*
        }

        pub const FAULTS: &[Wrong] = &[$(Wrong::$fault,)*];
    };
}

faults! {
    // Delivery.
    NewestThoughUntaken,
    StrictlyAbove,
    SilentAgrees,
    NeverDelivers,
    DeliversAnywhere,
    DeliversEarly,
    DeliversOnlyWhenTaken,
    DeliversOneAtATime,
    OrderDoesNotDeliver,
    WithoutSourceNothingIsReady,
    EveryPostMustAgree,
    ItselfNeedNotAgree,
    LaneSevenNeedNotAgree,
    OnlyOrdersOfSources,
    WholeLogSorted,
    ByLaneThenStamp,
    EqualsByHigherLane,
    EqualsByHigherSerial,
    // Hearing.
    ClockOnAgain,
    ClockOnEarly,
    ClockOfAnyPost,
    ClockWithoutStamp,
    ClockWithoutMax,
    OwnEntryForgotten,
    OwnEntryOnlyRaised,
    OwnEntryAtZero,
    EntryLowers,
    EntryForgottenOnAgain,
    EntryForgottenOnEarly,
    EntryOfNewerSerialOnly,
    OrderRaisesTable,
    EarlyIsTaken,
    EarlyIsKept,
    WordForgotten,
    // Broadcast.
    SenderStays,
    BroadcastOnAgain,
    BroadcastOfOldTable,
    FramePassedOn,
    NewestLowerSerial,
    NewestHighestSerial,
    NewestOfSourcesOnly,
    NewestSerialZeroIsNone,
    // Order.
    OwnOrderOnlyRaises,
    OwnOrderWithoutEntry,
    // Refusals.
    UnusedBufferUnjudged,
    ClockSpentByAgain,
    ClockSpentByEarly,
    ClockSpentByClockOnly,
    ClockSpentByStampOnly,
    ClockSpentOneEarly,
    ClockSpentAnywhere,
    OwnOrderIsOwnBroadcast,
    OwnBeaconHeard,
    StrangeSenderHeard,
    SenderMustBeSource,
    StrangeOrderHeard,
    BeaconHasLane,
    StrangeIsWithoutPost,
    StrangeEntryHeard,
    EntryMustHaveSerial,
    StaleAgain,
    StaleEarly,
    StaleFirst,
    StaleUnlessBelow,
    BeyondOfAnyLane,
    BeyondSerialHeard,
    BeyondStampHeard,
    BeyondFromClockOn,
    BeyondOrderHeard,
    BeyondOrderStamp,
}
