//! What the eight unchanged files of cairn-proto name and this repository lacks.
//! The root declares `extern crate self as zeroize` (and subtle, cairn_crypto), so these items stand for the
//! crates of those names. Nothing here takes part in reading or writing a row: the cipher functions are never run.

use core::ops::{Deref, DerefMut};

/// `zeroize::Zeroizing`, without the erasing.
#[derive(Debug, Clone, Default, PartialEq, Eq)]
pub struct Zeroizing<T>(T);

impl<T> Zeroizing<T> {
    pub fn new(value: T) -> Self {
        Self(value)
    }
}

impl<T> Deref for Zeroizing<T> {
    type Target = T;
    fn deref(&self) -> &T {
        &self.0
    }
}

impl<T> DerefMut for Zeroizing<T> {
    fn deref_mut(&mut self) -> &mut T {
        &mut self.0
    }
}

/// `subtle::Choice` and `subtle::ConstantTimeEq`, without the constant time.
#[derive(Debug, Clone, Copy)]
pub struct Choice(bool);

impl From<Choice> for bool {
    fn from(choice: Choice) -> bool {
        choice.0
    }
}

pub trait ConstantTimeEq: PartialEq {
    fn ct_eq(&self, other: &Self) -> Choice {
        Choice(self == other)
    }
}

impl ConstantTimeEq for u8 {}
impl<const N: usize> ConstantTimeEq for [u8; N] {}

/// `cairn_crypto`: names alone; no backend exists, so nothing generic over one is ever built.
pub const MLKEM768_ENCAPSULATION_KEY_LEN: usize = 1184;

#[derive(Debug, Clone, Copy, PartialEq, Eq)]
pub enum CryptoError {
    AuthenticationFailed,
    Other,
}

pub trait CryptoBackend {
    fn hkdf_sha384(
        ikm: &[u8],
        salt: &[u8],
        info: &[u8],
        length: usize,
    ) -> Result<Zeroizing<Vec<u8>>, CryptoError>;
    fn hmac_sha384(key: &[u8], input: &[u8]) -> Result<[u8; 48], CryptoError>;
    fn sha384(input: &[u8]) -> [u8; 48];
    fn aes256gcm_seal(
        key: &[u8; 32],
        nonce: &[u8; 12],
        aad: &[u8],
        text: &[u8],
    ) -> Result<Vec<u8>, CryptoError>;
    fn aes256gcm_open(
        key: &[u8; 32],
        nonce: &[u8; 12],
        aad: &[u8],
        sealed: &[u8],
    ) -> Result<Zeroizing<Vec<u8>>, CryptoError>;
}
