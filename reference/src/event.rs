//! What is worth reaching in a list.

/// Seen by looking at the state before and after a frame.
#[derive(Clone, Copy, Debug, PartialEq, Eq)]
pub enum Event {
    Crashed,
    Restarted,
    RestartWithHoles,
    RestartStillCatchingUp,
    HoleTaken,
    CaughtUpLater,
    CheckpointWhileCatchingUp,
    CheckpointWhileDown,
    LostWhileDown,
    LostWhileCatchingUp,
    LostWithoutCopy,
    GrantOld,
    GrantReceived,
    GrantDropped,
    DataDropped,
    NotePresent,
    AckWithoutEntry,
    WorkWindow,
    WorkLog,
    WorkTable,
    WorkWire,
    AskTable,
    AskWindow,
    NoteListFull,
    RestartTable,
    RestartWire,
    InjectWire,
    LocalFilled,
    /// An ASK was found worked by a bit in the window's upper half.
    WorkedInUpperHalf,
    /// The mark rose by half the window at once, by more, by the whole window.
    HalfWindow,
    OverHalfWindow,
    WholeWindow,
    /// It rose by less than half, and bits moved from the window's upper half to its lower one.
    UpperHalfCameDown,
    Withdrawn,
    WithdrawnWhileDown,
    WithdrawnWhileCatchingUp,
    /// From a machine that is down.
    WithdrawDown,
    /// 12: nothing was ever sent to that chare.
    WithdrawNothing,
    /// 12: a checkpoint has dropped the message from the log.
    WithdrawDropped,
    /// 12: it has its TN, and a checkpoint has taken the ticket out of the table.
    WithdrawWorked,
    /// 12: it has its TN, and the ticket is in the table.
    WithdrawTicketed,
    /// 12: it has no TN yet, but its ASK is delivered and the ticket in the table.
    WithdrawAsked,
    /// 12: it has no TN yet, its ASK is on the wire, and the ticket is in the table all the same.
    WithdrawTicketAlone,
    /// 12 in any other way. No list gets there.
    WithdrawStray,
    /// A withdrawn SN was given to another value or other hops.
    NumberReused,
    /// That message was worked.
    ReusedWorked,
}

impl Event {
    pub const COUNT: usize = Event::ReusedWorked as usize + 1;
}
