//! The C interface over the model. Not the proved library: it only has the same functions.

pub use host::model_c::*;
