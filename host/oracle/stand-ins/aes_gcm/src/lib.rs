//! The names of the cipher. Nothing is encrypted or decrypted.

use std::marker::PhantomData;
use std::ops::Deref;

/// What encrypts with data that goes along.
pub mod aead {
    /// The system's source of random numbers.
    pub struct OsRng;
}

/// A cipher with a 256 bit key.
pub struct Aes256Gcm;

/// A key of the cipher `C`.
pub struct Key<C>(PhantomData<C>);

impl<C> From<[u8; 32]> for Key<C> {
    fn from(_: [u8; 32]) -> Self {
        Self(PhantomData)
    }
}

/// A nonce or a tag that was made.
pub struct Made(Vec<u8>);

impl Made {
    /// Its bytes.
    pub fn as_slice(&self) -> &[u8] {
        &self.0
    }
}

impl Deref for Made {
    type Target = [u8];

    fn deref(&self) -> &[u8] {
        &self.0
    }
}

/// A nonce or a tag that came along.
pub struct Given<'a>(PhantomData<&'a [u8]>);

impl<'a> From<&'a [u8]> for Given<'a> {
    fn from(_: &'a [u8]) -> Self {
        Self(PhantomData)
    }
}

/// Encrypting or decrypting failed.
#[derive(Debug)]
pub struct Error;

/// Makes nonces.
pub trait AeadCore {
    /// A new nonce.
    fn generate_nonce(_: aead::OsRng) -> Made {
        unreachable!("nothing is encrypted in the comparison")
    }
}

/// Is made from a key.
pub trait KeyInit: Sized {
    /// The cipher with this key.
    fn new(_: &Key<Self>) -> Self {
        unreachable!("nothing is encrypted in the comparison")
    }
}

/// Encrypts and decrypts in place.
pub trait AeadInPlace {
    /// Encrypts `_data` and gives the tag.
    fn encrypt_in_place_detached(
        &self,
        _nonce: &Made,
        _along: &[u8],
        _data: &mut [u8],
    ) -> Result<Made, Error> {
        unreachable!("nothing is encrypted in the comparison")
    }

    /// Decrypts `_data` if the tag is right.
    fn decrypt_in_place_detached(
        &self,
        _nonce: Given<'_>,
        _along: &[u8],
        _data: &mut [u8],
        _tag: Given<'_>,
    ) -> Result<(), Error> {
        unreachable!("nothing is decrypted in the comparison")
    }
}

impl AeadCore for Aes256Gcm {}
impl KeyInit for Aes256Gcm {}
impl AeadInPlace for Aes256Gcm {}
