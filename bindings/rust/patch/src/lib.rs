//! The crate `textwrap_proved` under the name `textwrap`.
#![no_std]

pub use textwrap_proved::*;
