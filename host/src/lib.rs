//! Host side of the Joyce main board: a second model of the board, and a differential test of the proved library
//! against it. The library is called through the crate `joyce`.

pub mod fuzz;
pub mod header;
pub mod machine;
pub mod model;
pub mod model_c;
#[cfg(feature = "standin")]
pub mod standin;
#[cfg(feature = "standin")]
mod standin_archive;
#[cfg(feature = "standin")]
mod standin_faults;
#[cfg(feature = "standin")]
mod standin_picture;
