//! Hexadecimal text, by the crate `hex`. Here what allocates may find no memory.
use super::alloc::{AllocError, Global};
use super::vec::Vec;
pub use hex::{decode_to_slice, encode_to_slice};

/// Why a text has no bytes.
#[derive(Clone, Copy, Debug, PartialEq)]
pub enum FromHexError {
    /// There is no memory for the bytes.
    OutOfMemory,
    /// It has other characters, or an odd number of digits.
    Text(hex::FromHexError),
}

/// Bytes that a text spells. The crate `hex` has it for some lengths.
pub trait FromHex: Sized {
    /// Why there are none.
    type Error;

    /// The bytes of a text.
    fn from_hex<T: AsRef<[u8]>>(digits: T) -> Result<Self, Self::Error>;
}

impl<const N: usize> FromHex for [u8; N] {
    type Error = FromHexError;

    fn from_hex<T: AsRef<[u8]>>(digits: T) -> Result<[u8; N], FromHexError> {
        let mut bytes = [0; N];
        decode_to_slice(digits, &mut bytes).map_err(FromHexError::Text)?;
        Ok(bytes)
    }
}

/// The text of bytes.
pub struct Text(Vec<u8>);

impl Text {
    /// Its characters.
    pub fn as_bytes(&self) -> &[u8] {
        &self.0
    }
}

/// The bytes of a text.
pub fn decode(alloc: Global, digits: &str) -> Result<Vec<u8>, FromHexError> {
    let mut bytes = zeros(alloc, digits.len() / 2).map_err(|_| FromHexError::OutOfMemory)?;
    decode_to_slice(digits, &mut bytes).map_err(FromHexError::Text)?;
    Ok(bytes)
}

/// The text of bytes.
pub fn encode(alloc: Global, bytes: &[u8]) -> Result<Text, AllocError> {
    let mut text = zeros(alloc, 2 * bytes.len())?;
    match encode_to_slice(bytes, &mut text) {
        Ok(()) => Ok(Text(text)),
        Err(_) => unreachable!("there are two digits for each byte"),
    }
}

fn zeros(alloc: Global, count: usize) -> Result<Vec<u8>, AllocError> {
    let mut bytes = Vec::with_capacity(alloc, count)?;
    bytes.resize(count, 0);
    Ok(bytes)
}
