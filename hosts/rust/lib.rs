//! The desk for hosts written in Rust: checks and prepares DTAZV payment files.
//!
//! The calls are safe functions over slices, above a library of x86-64 code whose calls are proved; this layer and the tables
//! in it are tested, not proved. It needs no other crate. The build finds libdesk.a in the repository or in an installed
//! release; anywhere else `DESK_LIB_DIR` names its folder.
//!
//! ```no_run
//! use desk::{judge, Lists, Page};
//!
//! let file = std::fs::read("payments.dtazv").unwrap();
//! match judge(Page::Iso8859_1, &file, Lists::ANNEXES, &[]) {
//!     Ok(sound) => println!("{} payments, {} whole euros", sound.payments, sound.euros),
//!     Err(refusal) => println!("{refusal}"),
//! }
//! ```

pub mod bookfile;
mod desk;

pub use desk::*;
