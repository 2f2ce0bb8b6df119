//! An independent model of Mivrozh's rules: written from the standards and the scope document alone, and sharing no
//! code with the engine. It is made to be read and compared, not to be fast, and it wipes nothing.
//!
//! The binary `lists` holds the library against it.

pub mod aes;
pub mod calls;
pub mod costs;
pub mod hash;
pub mod header;
pub mod kdf;
pub mod screens;
pub mod sha1;
pub mod sha256;
pub mod slots;
pub mod splitter;
pub mod writes;
pub mod xts;

pub use calls::{Call, Model, Outcome};

#[cfg(test)]
pub(crate) fn unhex(digits: &str) -> Vec<u8> {
    let digits: Vec<u8> = digits.bytes().filter(|b| !b.is_ascii_whitespace()).collect();
    let value = |d: u8| (d as char).to_digit(16).expect("a hexadecimal digit") as u8;
    digits.chunks_exact(2).map(|pair| 16 * value(pair[0]) + value(pair[1])).collect()
}
