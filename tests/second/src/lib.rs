//! A second picture unit, written from documents 01 and 02 alone, to hold the library against, and a
//! second text layer, written from document 02's words and the header.
//!
//! Nothing here is shared with the library. It works pixel by pixel and takes each rule as the
//! document words it; speed is no aim.
//!
//! * `unit`: the unit, its record of 16 bytes, and what each port does
//! * `memory`: the lent memories and where an address leads
//! * `picture`: the pixels of one line, and what a line does to the unit
//! * `runs`: lines one after the other, and the reasons to stop
//! * `overflow`: the search that sets status bit 5
//! * `colours`: how each pixel becomes a finished colour
//! * `calls`: fresh, read, write, dma, run, search, play on a record and byte slices, refusals included
//! * `shared`: read, write, dma, run by one of two units that share the tables and both line buffers
//! * `log`: the records of a log, and the player of logs
//! * `text`: the text layer, which stands above the unit: text of a page, page of a text

pub mod calls;
pub mod colours;
pub mod log;
pub mod memory;
pub mod overflow;
pub mod picture;
pub mod runs;
pub mod shared;
pub mod text;
pub mod unit;

pub use calls::{Answer, Refusal};
