//! The numbers with which an input is turned down.

/// Bits run out in a plan, or bytes in the header of an input.
pub const BITS: u32 = 1;
/// A form is neither 1 nor 2: a plan's, or the one asked for of a table. Or it
/// is not the one expected of a plan that is to be turned into the other form.
pub const FORM: u32 = 2;
/// A job count, frame, action count, sum or cost is outside its range.
pub const RANGE: u32 = 3;
/// A spawn rule is broken.
pub const SPAWN: u32 = 4;
/// A join rule is broken.
pub const JOIN: u32 = 5;
/// A fill bit is not 0, or bytes are left over.
pub const REST: u32 = 6;
/// The worker count is 0 or above 16.
pub const WORKERS: u32 = 7;
/// The choices are too many, missing, or one is not a worker.
pub const CHOICES: u32 = 8;
/// The output buffer is too short.
pub const ROOM: u32 = 9;
/// The open table is empty, not whole rows, or breaks its row rules.
pub const TABLE: u32 = 10;
/// The schedule's length, header, a round or its fill is not well formed.
pub const SCHEDULE: u32 = 11;
/// A schedule rule is broken.
pub const RULE: u32 = 12;
/// A plan that is to be turned into form 1 has a cost other than 1.
pub const COST: u32 = 15;
/// Of two plans that are to be built together, the new root's frame is outside
/// its range, or the result has too many jobs or actions.
pub const PAIR: u32 = 17;
