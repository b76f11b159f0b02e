//! The rules once more, written plainly and apart from the verified library, to
//! compare its answers and its speed with.

#![forbid(unsafe_code)]

pub mod call;
pub mod instrument;
pub mod line;
pub mod making;
pub mod reading;
pub mod refusal;
pub mod sheet;
pub mod trains;
pub mod turn;
pub mod writing;

pub use sheet::play_sheet;
