//! The faults, by what they leave out or do wrong.

#[derive(Clone, Copy, PartialEq, Eq, Debug)]
pub enum Fault {
    /// Request and fetch answer a result that is not synced.
    ReplyBeforeSync,
    /// The image carries no completion records.
    ImageWithoutRecords,
    /// The image carries only the lowest floors that its records admit.
    ImageWithoutFloors,
    /// The image carries heard time 0.
    ImageWithoutHeard,
    /// The image is made although the give is not synced.
    ImageBeforeSync,
    /// A notice does not raise the heard time; recovery does.
    NoticeWithoutHeard,
    /// Request does not test the lease end.
    LeaseEndNotTested,
    /// Request does not test the floor, nor does recovery.
    FloorNotTested,
    /// Recover tests the log, then gives the state of a server just founded.
    RecoverToFounding,
    /// Recover works results out by its program's rules instead of reading them.
    RecoverWorksOut,
    /// A step past an end puts the value at the other end.
    StepToOtherEnd,
    /// A step past an end makes the quality invalid.
    StepLosesQuality,
    /// A part to the nearest rounds every exact half up.
    PartHalfUp,
    /// A step on a value by hand makes it valid.
    StepLosesByHand,
    /// A report in range counts as by hand.
    ReportByHand,
    /// A take does not raise the heard time; recovery does.
    TakeWithoutHeard,
    /// An opening does not need a read of the other gate.
    OtherGateNotRead,
    /// An opening needs that read, whatever its value.
    OtherGateValueNotTested,
    /// An opening needs the other gate as measured; by hand is not enough.
    GateByHandRefused,
    /// An opening's levels may be by hand.
    LevelByHandTaken,
    /// An opening's reads may be older than the last set or part.
    ReadsOfAnyAge,
    /// They may be older than one of the other gate.
    SinceOwnGateOnly,
    /// They may be older than a part.
    PartNotLast,
    /// A part is issued as set 0 is.
    PartNoOpening,
    /// A controller does not wait for its open command.
    SeveralOpen,
    /// A successor starts at any time.
    SuccessorAtAnyTime,
    /// It starts when the holders have the heard time, synced or not.
    HeardNotSynced,
    /// It starts although a gate is being moved.
    GateBeingMoved,
    /// It starts when the upper gate's holder has the heard time.
    OneGateOnly,
    /// It looks for the heard time at each gate's home.
    HomeForHolder,
    /// A desk that is no controller commands gates as other points.
    OtherDeskMovesGate,
    /// The office renews a lease that has ended.
    RenewEnded,
    /// The checkpoint has heard time 0.
    CheckpointWithoutHeard,
    /// It has no completion records.
    CheckpointWithoutRecords,
    /// It has only the lowest floors that its records admit.
    CheckpointWithoutFloors,
    /// It has every point that was held here as valid.
    CheckpointWithoutQuality,
    /// It has given points as held, as before their gives.
    CheckpointGivenAsHeld,
    /// It has given points as released.
    CheckpointGivenAsReleased,
    /// It has released points as given.
    CheckpointReleasedAsGiven,
    /// It has no completion records of given points.
    CheckpointWithoutGivenRecords,
    /// It has the first other cabinet as the destination of each point.
    CheckpointWithoutDestination,
    /// It has no latest taken moves.
    CheckpointWithoutTaken,
    /// It has move number 0 of each point.
    CheckpointWithoutMove,
    /// A checkpoint leaves the mark where it was.
    MarkNotReset,
    /// It leaves the ends of completion records, of gives, or of takes.
    RecordEndsNotReset,
    GiveEndsNotReset,
    TakeEndsNotReset,
    /// A checkpoint is made although records are not synced.
    CheckpointBeforeSync,
    /// A crash while a checkpoint is stored keeps the new tail with the old checkpoint.
    NewTailKept,
    /// It keeps the old log with the new checkpoint.
    NewCheckpointKept,
    /// A checkpoint is not stored, though its tail is.
    StoredLost,
    /// The host calls a server before its checkpoint is stored.
    CallsWhileStoring,
    /// Survival is counted in the tail alone.
    SurvivalInTail,
    /// Inspect looks in the checkpoint before the tail.
    InspectCheckpointFirst,
    /// Inspect looks in the tail from its first record on.
    InspectFirstRecord,
    /// A result carries the heard time at the reply.
    TimeOfReply,
    /// A take puts its own heard time in the records that it brings; recovery does not.
    TimeOfTake,
    /// The image carries times 0.
    ImageWithoutTimes,
    /// The checkpoint has times 0.
    CheckpointWithoutTimes,
    /// Recover gives executed records without a time the heard time that they find.
    RecoverWorksTimesOut,
    /// A dispatcher serves the one that came last.
    LastComeFirst,
    /// It serves the lowest client number.
    LowestFirst,
    /// It keeps the place of a request that was refused.
    PlaceKept,
    /// It lets a client wait twice.
    TwoPlaces,
    /// It refuses a client's second request with 21, and keeps it for the first.
    NewerStays,
    /// A serving drops the one behind as well.
    NextDropped,
    /// It refuses the last place with 8.
    LastPlaceUnused,
}
