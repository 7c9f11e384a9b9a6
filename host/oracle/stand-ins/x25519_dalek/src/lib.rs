//! Keys as 32 bytes. No secret is ever shared.

/// A public key.
#[derive(Debug, Clone, Copy, PartialEq, Eq, Hash)]
pub struct PublicKey([u8; 32]);

impl PublicKey {
    /// Its bytes.
    pub fn to_bytes(self) -> [u8; 32] {
        self.0
    }

    /// Its bytes, by reference.
    pub fn as_bytes(&self) -> &[u8; 32] {
        &self.0
    }
}

impl From<[u8; 32]> for PublicKey {
    fn from(bytes: [u8; 32]) -> Self {
        Self(bytes)
    }
}

impl From<&StaticSecret> for PublicKey {
    fn from(_: &StaticSecret) -> Self {
        unreachable!("no public key is made from a secret in the comparison")
    }
}

/// A secret key.
#[derive(Clone)]
pub struct StaticSecret([u8; 32]);

impl StaticSecret {
    /// A new secret.
    pub fn random_from_rng<R>(_: R) -> Self {
        unreachable!("no secret is made in the comparison")
    }

    /// Its bytes.
    pub fn as_bytes(&self) -> &[u8; 32] {
        &self.0
    }

    /// The secret that it shares with `other`.
    pub fn diffie_hellman(&self, _other: &PublicKey) -> SharedSecret {
        unreachable!("no secret is shared in the comparison")
    }
}

impl From<[u8; 32]> for StaticSecret {
    fn from(bytes: [u8; 32]) -> Self {
        Self(bytes)
    }
}

/// A secret that two keys share.
pub struct SharedSecret([u8; 32]);

impl SharedSecret {
    /// Its bytes.
    pub fn to_bytes(&self) -> [u8; 32] {
        self.0
    }
}
