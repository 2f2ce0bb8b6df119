//! Randomness of the operating system.
use crate::failure::Failure;
use mivrozh::Secret;
use std::fs::File;
use std::io::Read;
use std::path::Path;

/// Random bytes. Keys are made here, so all of them are wiped when they are dropped.
pub fn bytes(length: usize) -> Result<Secret, Failure> {
    let source = Path::new("/dev/urandom");
    let mut bytes = Secret::zeroed(length);
    File::open(source)
        .and_then(|mut file| file.read_exact(bytes.expose_mut()))
        .map_err(|error| Failure::input_output(source.display(), &error))?;
    Ok(bytes)
}

pub fn salt() -> Result<[u8; 32], Failure> {
    let bytes = bytes(32)?;
    Ok(bytes.expose().try_into().expect("32 bytes were asked for"))
}

/// A random UUID (version 4 of RFC 9562).
pub fn uuid() -> Result<String, Failure> {
    let mut bytes = bytes(16)?;
    let b = bytes.expose_mut();
    b[6] = (b[6] & 0x0F) | 0x40;
    b[8] = (b[8] & 0x3F) | 0x80;
    let digits: Vec<String> = b.iter().map(|byte| format!("{byte:02x}")).collect();
    let groups = [0..4, 4..6, 6..8, 8..10, 10..16];
    Ok(groups.map(|group| digits[group].concat()).join("-"))
}

#[cfg(test)]
mod tests {
    #[test]
    fn a_uuid_has_36_characters_and_its_version() {
        let uuid = super::uuid().expect("randomness");
        assert_eq!(uuid.len(), 36);
        assert_eq!(uuid.as_bytes()[14], b'4');
        assert!(uuid.chars().enumerate().all(|(at, c)| {
            if [8, 13, 18, 23].contains(&at) {
                c == '-'
            } else {
                c.is_ascii_hexdigit()
            }
        }));
        assert_ne!(uuid, super::uuid().expect("randomness"));
    }
}
