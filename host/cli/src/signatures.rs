//! What stands at the beginning of a file or device: nothing but zeros, something that is known by its signature, or data.

// Bytes at an offset, and what has them. The first that fits is said.
const SIGNATURES: [(usize, &[u8], &str); 34] = [
    (0, b"LUKS\xba\xbe", "a LUKS drive"),
    (16384, b"SKUL\xba\xbe", "a LUKS drive's second header"),
    (512, b"EFI PART", "a partition table (GPT)"),
    (4096, b"EFI PART", "a partition table (GPT)"),
    (1080, b"\x53\xef", "an ext2, ext3 or ext4 file system"),
    (0, b"XFSB", "an XFS file system"),
    (65600, b"_BHRfS_M", "a btrfs file system"),
    (3, b"NTFS    ", "an NTFS file system"),
    (3, b"EXFAT   ", "an exFAT file system"),
    (3, b"-FVE-FS-", "a BitLocker drive"),
    (54, b"FAT", "a FAT file system"),
    (82, b"FAT32", "a FAT file system"),
    (1024, b"\x10\x20\xf5\xf2", "an F2FS file system"),
    (1024, b"\xe2\xe1\xf5\xe0", "an EROFS file system"),
    (0, b"hsqs", "a squashfs file system"),
    (1024, b"H+", "an HFS+ file system"),
    (1024, b"HX", "an HFS+ file system"),
    (32, b"NXSB", "an APFS container"),
    (32768, b"JFS1", "a JFS file system"),
    (65588, b"ReIsEr", "a ReiserFS file system"),
    (32769, b"CD001", "an ISO 9660 file system"),
    (32769, b"BEA01", "a UDF file system"),
    (4086, b"SWAPSPACE2", "swap space"),
    (4086, b"SWAP-SPACE", "swap space"),
    (0, b"LABELONE", "an LVM physical volume"),
    (512, b"LABELONE", "an LVM physical volume"),
    (1024, b"LABELONE", "an LVM physical volume"),
    (1536, b"LABELONE", "an LVM physical volume"),
    (0, b"\xfc\x4e\x2b\xa9", "a part of a RAID"),
    (4096, b"\xfc\x4e\x2b\xa9", "a part of a RAID"),
    (4120, b"\xc6\x85\x73\xf6\x4e\x1a\x45\xca", "a bcache device"),
    (0, b"QFI\xfb", "a qcow2 image"),
    (0, b"KDMV", "a VMDK image"),
    (0, b"conectix", "a VHD image"),
];

/// What these first bytes of a file hold; nothing where all of them are zero.
pub fn found(bytes: &[u8]) -> Option<&'static str> {
    if bytes.iter().all(|&byte| byte == 0) {
        return None;
    }
    let known = SIGNATURES.iter().find(|(at, signature, _)| bytes.get(*at..).is_some_and(|b| b.starts_with(signature)));
    match known {
        Some((_, _, what)) => Some(what),
        None if is_partition_table(bytes) => Some("a partition table (MBR)"),
        None => Some("data"),
    }
}

// The mark at the end of sector 0, and four entries of which one is in use and each is marked as bootable or not.
fn is_partition_table(bytes: &[u8]) -> bool {
    let Some(entries) = bytes.get(446..510) else { return false };
    let kinds = entries.chunks(16).map(|entry| entry[4]);
    bytes.get(510..512) == Some(&[0x55, 0xaa])
        && entries.chunks(16).all(|entry| [0, 0x80].contains(&entry[0]))
        && kinds.into_iter().any(|kind| kind != 0)
}

#[cfg(test)]
mod tests {
    use super::*;

    #[test]
    fn zeros_are_nothing() {
        assert_eq!(found(&[]), None);
        assert_eq!(found(&[0; 100_000]), None);
    }

    #[test]
    fn one_byte_is_data() {
        for at in [0, 511, 512, 99_999] {
            let mut bytes = vec![0; 100_000];
            bytes[at] = 1;
            assert_eq!(found(&bytes), Some("data"), "{at}");
        }
    }

    #[test]
    fn every_signature_is_found_in_its_place_alone() {
        for (at, signature, what) in SIGNATURES {
            let mut bytes = vec![0; 100_000];
            bytes[at..at + signature.len()].copy_from_slice(signature);
            assert_eq!(found(&bytes), Some(what));
            assert_eq!(found(&bytes[..at + signature.len() - 1]), (at > 0 || signature.len() > 1).then_some("data"));
        }
    }

    #[test]
    fn a_partition_table_has_its_mark_and_an_entry() {
        let mut bytes = vec![0; 4096];
        bytes[510..512].copy_from_slice(&[0x55, 0xaa]);
        assert_eq!(found(&bytes), Some("data"));
        bytes[446 + 16 + 4] = 0x83;
        assert_eq!(found(&bytes), Some("a partition table (MBR)"));
        bytes[446] = 1;
        assert_eq!(found(&bytes), Some("data"));
    }
}
