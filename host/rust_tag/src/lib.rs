//! A MIFARE Ultralight AES tag as document 01 describes it, in plain Rust with the standard library only.
//!
//! The modules name each other by `super`, so another program can use this crate built by `rustc --crate-type rlib`, or take the file
//! in as a module: `#[path = ".../src/lib.rs"] mod rust_tag;`.

#![forbid(unsafe_code)]

pub mod aes;
pub mod bench;
pub mod c_form;
pub mod crc;
pub mod rules;
pub mod tag;
