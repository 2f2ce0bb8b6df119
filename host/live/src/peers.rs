//! cryptsetup and qemu-img as they are used on image files. Slots are counted as ours, from 1; theirs count from 0.

use crate::screens::{self, Shown};
use crate::work::{load, output, run, store, text, Folder, Kind, Outcome};
use std::path::Path;

const COUNT: [&str; 2] = ["--pbkdf-force-iterations", "1000"];

pub struct Cryptsetup<'a> {
    pub folder: &'a Folder,
}

impl Cryptsetup<'_> {
    /// A drive whose payload starts on a multiple of so many sectors, or where cryptsetup likes.
    pub fn format(&self, image: &Path, kind: Kind, alignment: Option<&str>, passphrase: &str) -> Outcome<()> {
        let (size, hash) = (kind.bits.to_string(), kind.hash.name());
        let mut drive = vec!["--cipher", "aes-xts-plain64", "--hash", hash, "--key-size", &size];
        drive.extend(alignment.iter().flat_map(|sectors| ["--align-payload", sectors]));
        self.luks_format(image, &drive, passphrase)
    }

    /// A drive of version 1 with nothing said of cipher, hash and key size.
    pub fn format_by_default(&self, image: &Path, passphrase: &str) -> Outcome<()> {
        self.luks_format(image, &[], passphrase)
    }

    fn luks_format(&self, image: &Path, options: &[&str], passphrase: &str) -> Outcome<()> {
        let file = self.folder.file("passphrase", passphrase.as_bytes())?;
        let first = ["luksFormat", "--batch-mode", "--type", "luks1", "--key-file", text(&file)];
        run("cryptsetup", &[&first[..], &COUNT, options, &[text(image)]].concat()).map(|_| ())
    }

    pub fn add(&self, image: &Path, known: &str, slot: u8, new: &str) -> Outcome<()> {
        let known = self.folder.file("passphrase", known.as_bytes())?;
        let new = self.folder.file("new passphrase", new.as_bytes())?;
        let slot = (slot - 1).to_string();
        let mut arguments = vec!["luksAddKey", "--batch-mode", "--key-file", text(&known), "--new-key-slot", &slot];
        arguments.extend(COUNT);
        arguments.extend([text(image), text(&new)]);
        run("cryptsetup", &arguments).map(|_| ())
    }

    pub fn change(&self, image: &Path, slot: u8, old: &str, new: &str) -> Outcome<()> {
        let old = self.folder.file("passphrase", old.as_bytes())?;
        let new = self.folder.file("new passphrase", new.as_bytes())?;
        let slot = (slot - 1).to_string();
        let mut arguments = vec!["luksChangeKey", "--batch-mode", "--key-file", text(&old), "--key-slot", &slot];
        arguments.extend(COUNT);
        arguments.extend([text(image), text(&new)]);
        run("cryptsetup", &arguments).map(|_| ())
    }

    pub fn kill(&self, image: &Path, slot: u8) -> Outcome<()> {
        run("cryptsetup", &["luksKillSlot", "--batch-mode", text(image), &(slot - 1).to_string()]).map(|_| ())
    }

    /// Does the passphrase open this slot?
    pub fn opens(&self, image: &Path, slot: u8, passphrase: &str) -> Outcome<bool> {
        let file = self.folder.file("passphrase", passphrase.as_bytes())?;
        let slot = (slot - 1).to_string();
        let arguments = ["open", "--test-passphrase", "--key-file", text(&file), "--key-slot", &slot, text(image)];
        let out = output("cryptsetup", &arguments)?;
        match out.status.code() {
            Some(0) => Ok(true),
            // 1: the slot is disabled; 2: no key with this passphrase.
            Some(1 | 2) => Ok(false),
            _ => Err(format!("cryptsetup open: {}: {}", out.status, String::from_utf8_lossy(&out.stderr).trim())),
        }
    }

    /// The slots as luksDump shows them.
    pub fn slots(&self, image: &Path) -> Outcome<Vec<Shown>> {
        screens::of_luks_dump(&run("cryptsetup", &["luksDump", text(image)])?)
    }

    /// The payload start as luksDump shows it, in sectors.
    pub fn payload_start(&self, image: &Path) -> Outcome<u64> {
        screens::payload_of_luks_dump(&run("cryptsetup", &["luksDump", text(image)])?)
    }

    /// The slots that luksDump calls enabled.
    pub fn enabled(&self, image: &Path) -> Outcome<Vec<u8>> {
        self.slots(image).map(|slots| screens::enabled(&slots))
    }

    pub fn uuid(&self, image: &Path) -> Outcome<String> {
        run("cryptsetup", &["luksUUID", text(image)]).map(|said| said.trim().to_owned())
    }

    /// The payload, which has so many bytes. A payload is behind a device of the kernel where cryptsetup opens a drive; but it
    /// deciphers and enciphers by itself where a drive of version 2 leaves its key, for none or for another. So a copy does.
    pub fn read(&self, image: &Path, passphrase: &str, length: usize) -> Outcome<Vec<u8>> {
        let [copy, header] = ["copy for cryptsetup", "header of the copy"].map(|name| self.folder.path.join(name));
        let _ = std::fs::remove_file(&header);
        store(&copy, &load(image)?)?;
        self.convert(&copy, "luks2")?;
        self.reencrypt(&copy, passphrase, &["--decrypt", "--header", text(&header)])?;
        // The payload is now where the header was.
        load(&copy)?.get(..length).map(<[u8]>::to_vec).ok_or("cryptsetup has made the copy too short".into())
    }

    /// Writes the payload anew, enciphered under another key of cryptsetup's choice, and that key into the passphrase's slot.
    pub fn rewrite(&self, image: &Path, kind: Kind, passphrase: &str) -> Outcome<()> {
        self.convert(image, "luks2")?;
        // Twice: only a header's checksum number 0 goes back to version 1, and the new key's is by turns 1 and 0.
        for _ in 0..2 {
            let slot = ["--pbkdf", "pbkdf2", "--hash", kind.hash.name(), "--resilience", "none"];
            self.reencrypt(image, passphrase, &[&slot[..], &COUNT].concat())?;
        }
        self.convert(image, "luks1")
    }

    fn convert(&self, image: &Path, version: &str) -> Outcome<()> {
        run("cryptsetup", &["convert", "--batch-mode", "--disable-locks", "--type", version, text(image)]).map(|_| ())
    }

    fn reencrypt(&self, image: &Path, passphrase: &str, options: &[&str]) -> Outcome<()> {
        let file = self.folder.file("passphrase", passphrase.as_bytes())?;
        let first = ["reencrypt", "--batch-mode", "--disable-locks", "--force-offline-reencrypt"];
        run("cryptsetup", &[&first[..], &["--key-file", text(&file)], options, &[text(image)]].concat()).map(|_| ())
    }

    pub fn volume_key(&self, image: &Path, passphrase: &str) -> Outcome<Vec<u8>> {
        let file = self.folder.file("passphrase", passphrase.as_bytes())?;
        let out = self.folder.path.join("volume key");
        let _ = std::fs::remove_file(&out);
        let dump = ["luksDump", "--batch-mode", "--dump-volume-key", "--volume-key-file", text(&out)];
        run("cryptsetup", &[&dump[..], &["--key-file", text(&file), text(image)]].concat())?;
        load(&out)
    }
}

pub struct Qemu<'a> {
    pub folder: &'a Folder,
}

impl Qemu<'_> {
    fn secret(&self, id: &str, passphrase: &str) -> Outcome<String> {
        let file = self.folder.file(&format!("secret-{id}"), passphrase.as_bytes())?;
        Ok(format!("secret,id={id},file={}", text(&file)))
    }

    fn opened(&self, image: &Path) -> String {
        format!("driver=luks,key-secret=s,file.filename={}", text(image))
    }

    pub fn format(&self, image: &Path, kind: Kind, passphrase: &str, payload: usize) -> Outcome<()> {
        let (bits, hash) = (kind.bits / 2, kind.hash.name());
        let cipher = format!("cipher-alg=aes-{bits},cipher-mode=xts,ivgen-alg=plain64,hash-alg={hash},");
        self.create(image, &cipher, passphrase, payload)
    }

    /// A drive with nothing said of cipher, hash and key size.
    pub fn format_by_default(&self, image: &Path, passphrase: &str, payload: usize) -> Outcome<()> {
        self.create(image, "", passphrase, payload)
    }

    fn create(&self, image: &Path, cipher: &str, passphrase: &str, payload: usize) -> Outcome<()> {
        let (secret, size) = (self.secret("s", passphrase)?, payload.to_string());
        let options = format!("key-secret=s,{cipher}iter-time=10");
        let arguments = ["create", "-q", "--object", &secret, "-f", "luks", "-o", &options, text(image), &size];
        self.measured(&arguments)
    }

    /// The whole payload.
    pub fn read(&self, image: &Path, passphrase: &str) -> Outcome<Vec<u8>> {
        let (secret, opened) = (self.secret("s", passphrase)?, self.opened(image));
        let out = self.folder.path.join("plain read by qemu");
        run("qemu-img", &["convert", "--object", &secret, "--image-opts", &opened, "-O", "raw", text(&out)])?;
        load(&out)
    }

    pub fn reads(&self, image: &Path, passphrase: &str) -> bool {
        self.read(image, passphrase).is_ok()
    }

    /// Writes the payload from its start.
    pub fn write(&self, image: &Path, passphrase: &str, plain: &[u8]) -> Outcome<()> {
        let (secret, opened) = (self.secret("s", passphrase)?, self.opened(image));
        let plain = self.folder.file("plain for qemu", plain)?;
        let from = ["convert", "-q", "-n", "--object", &secret, "-f", "raw"];
        run("qemu-img", &[&from[..], &["--target-image-opts", text(&plain), &opened]].concat()).map(|_| ())
    }

    /// The slots as qemu-img info shows them.
    pub fn slots(&self, image: &Path) -> Outcome<Vec<Shown>> {
        screens::of_qemu(&self.info(image)?)
    }

    /// The payload start as qemu-img info shows it, in sectors.
    pub fn payload_start(&self, image: &Path) -> Outcome<u64> {
        screens::payload_of_qemu(&self.info(image)?)
    }

    fn info(&self, image: &Path) -> Outcome<String> {
        run("qemu-img", &["info", "-f", "luks", "--output=json", text(image)])
    }

    pub fn add(&self, image: &Path, known: &str, slot: u8, new: &str) -> Outcome<()> {
        let options = format!("state=active,new-secret=n,keyslot={},iter-time=10", slot - 1);
        self.amend(image, known, new, &options)
    }

    pub fn remove(&self, image: &Path, known: &str, slot: u8) -> Outcome<()> {
        self.amend(image, known, known, &format!("state=inactive,keyslot={}", slot - 1))
    }

    fn amend(&self, image: &Path, known: &str, new: &str, options: &str) -> Outcome<()> {
        let (secret, new, opened) = (self.secret("s", known)?, self.secret("n", new)?, self.opened(image));
        let secrets = ["--object", &secret, "--object", &new];
        self.measured(&[&["amend", "-q"], &secrets[..], &["-o", options, "--image-opts", &opened]].concat())
    }

    // Runs qemu-img where it measures its own speed first. It gives up where that took no whole tick of the system's clock, as
    // on a fast machine it often does; then it is run again.
    fn measured(&self, arguments: &[&str]) -> Outcome<()> {
        let mut last = Ok(());
        for _ in 0..300 {
            last = run("qemu-img", arguments).map(|_| ());
            match &last {
                Err(said) if said.contains("Unable to get accurate CPU usage") => {}
                _ => break,
            }
        }
        last
    }
}
