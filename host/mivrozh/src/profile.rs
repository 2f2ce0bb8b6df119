//! The profiles: which cipher, hash and key length a drive may have.

/// The hash of a drive, by which keys are derived and split.
#[derive(Clone, Copy, Debug, PartialEq, Eq, Hash)]
#[non_exhaustive]
pub enum Hash {
    Sha1,
    Sha256,
}

impl Hash {
    /// Every hash.
    pub const ALL: &'static [Hash] = &[Hash::Sha1, Hash::Sha256];

    /// Its name, as a header has it.
    pub fn name(self) -> &'static str {
        match self {
            Hash::Sha1 => "sha1",
            Hash::Sha256 => "sha256",
        }
    }

    /// Bytes of its digest, and so of a block of PBKDF2.
    pub fn digest_bytes(self) -> usize {
        match self {
            Hash::Sha1 => 20,
            Hash::Sha256 => 32,
        }
    }

    /// The hash with this name.
    pub fn named(name: &str) -> Option<Hash> {
        Hash::ALL.iter().copied().find(|hash| hash.name() == name)
    }
}

/// A profile fixes cipher, hash and key length. The cipher of all of them is aes in the mode xts-plain64. Later versions may
/// have more of them, so a match has an arm for others:
///
/// ```compile_fail,E0004
/// # use mivrozh::Profile;
/// # let profile = Profile::Key256;
/// match profile {
///     Profile::Key256 | Profile::Key512 => {}
///     Profile::Sha256Key256 | Profile::Sha256Key512 => {}
/// }
/// ```
#[derive(Clone, Copy, Debug, PartialEq, Eq)]
#[non_exhaustive]
pub enum Profile {
    /// sha1, a key of 32 bytes.
    Key256 = 1,
    /// sha1, a key of 64 bytes.
    Key512 = 2,
    /// sha256, a key of 32 bytes.
    Sha256Key256 = 3,
    /// sha256, a key of 64 bytes.
    Sha256Key512 = 4,
}

impl Profile {
    /// Every profile, in the order of the numbers.
    pub const ALL: &'static [Profile] =
        &[Profile::Key256, Profile::Key512, Profile::Sha256Key256, Profile::Sha256Key512];

    /// The profile with this hash and so many bytes of key; nothing where there is none.
    ///
    /// ```
    /// use mivrozh::{Hash, Profile};
    ///
    /// assert_eq!(Profile::of(Hash::Sha256, 64), Some(Profile::Sha256Key512));
    /// assert_eq!(Profile::of(Hash::Sha256, 48), None);
    /// ```
    pub fn of(hash: Hash, key_bytes: usize) -> Option<Profile> {
        Profile::ALL.iter().copied().find(|profile| (profile.hash(), profile.key_bytes()) == (hash, key_bytes))
    }

    pub fn hash(self) -> Hash {
        match self {
            Profile::Key256 | Profile::Key512 => Hash::Sha1,
            Profile::Sha256Key256 | Profile::Sha256Key512 => Hash::Sha256,
        }
    }

    /// Bytes of the master key.
    pub fn key_bytes(self) -> usize {
        match self {
            Profile::Key256 | Profile::Sha256Key256 => 32,
            Profile::Key512 | Profile::Sha256Key512 => 64,
        }
    }

    /// How many HMAC values a derivation of a key makes with this count: the count for each block of a digest's length, of which
    /// the last may be cropped.
    ///
    /// ```
    /// use mivrozh::Profile;
    ///
    /// assert_eq!(Profile::Key256.derivation_values(1001), 2002); // 32 bytes are two blocks of 20.
    /// assert_eq!(Profile::Sha256Key512.derivation_values(1000), 2000); // 64 are two of 32.
    /// ```
    pub fn derivation_values(self, count: u32) -> u64 {
        u64::from(count) * self.key_bytes().div_ceil(self.hash().digest_bytes()) as u64
    }

    /// The number, from 1 on, that the engine has for it.
    pub fn number(self) -> u8 {
        self as u8
    }
}
