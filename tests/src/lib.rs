//! An independent model of the product of document 01 (01-scope.md) and of requests a, c to k and m of
//! document 02 (02-change-requests.md), written from their words alone, and what the tests and timings
//! of libsheet.a need beside it.
//!
//! Words: a row is a course of 01, a column a needle, a burst a blot, a syndrome the two sums of a
//! sheet, a check cell a cell of the check list, a scan a sheet as one head read it from the film. A stack
//! is sheets in one buffer, each with a room. A sheet lies in bytes by rows or by columns, and is turned from
//! one layout into the other. A pattern is the cells of a burst in one rectangle, as a number. To put a burst
//! back is to turn its cells over again. Where a plan's t is not 0, a burst has at most t cells: few.

pub mod answer;
pub mod cases;
#[cfg(feature = "linked")]
pub mod compared;
pub mod damage;
#[cfg(feature = "linked")]
pub mod ffi;
pub mod given;
pub mod header;
pub mod house;
pub mod kinds;
pub mod line;
pub mod make;
pub mod model;
pub mod pairs;
pub mod plan;
pub mod positions;
pub mod puts;
pub mod refused;
pub mod rng;
pub mod runs;
pub mod scans;
pub mod sparse;
pub mod stacks;
pub mod table;
pub mod tables;
pub mod tally;
pub mod trials;
pub mod yardstick;
