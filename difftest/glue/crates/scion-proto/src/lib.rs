//! Glue: the crate root. It names the modules; everything on the byte path is in the source files, but for
//! the macro in `utils` and the time library.

#![allow(dead_code, unexpected_cfgs)]

pub mod address;
pub mod packet;
pub mod path;
mod utils;
pub mod wire_encoding;
