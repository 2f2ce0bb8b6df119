//! README's walkthrough, as a reader types it.
mod common;
#[path = "common/pty.rs"]
mod pty;
use common::*;
use pty::Session;
use std::path::Path;

// The commands under "The tool", but for the installation: the tool that was built is on the path.
fn walkthrough() -> String {
    let readme = Path::new(env!("CARGO_MANIFEST_DIR")).join("../../README.md");
    let text = std::fs::read_to_string(readme).expect("README.md");
    let (_, section) = text.split_once("\n## The tool\n").expect("the section");
    let (_, rest) = section.split_once("```sh\n").expect("the commands");
    let (commands, _) = rest.split_once("```").expect("their end");
    let (install, rest) = commands.split_once("export PATH=").expect("the tool is put on the path first");
    assert!(install.starts_with("make && make install PREFIX=$HOME/.local "), "{install}");
    let (path, rest) = rest.split_once('\n').expect("further commands");
    assert_eq!(path, "$HOME/.local/bin:$PATH");
    rest.to_owned()
}

#[test]
fn the_walkthrough_works_as_it_stands() {
    let folder = Folder::new();
    let tool = Path::new(env!("CARGO_BIN_EXE_mivrozh")).parent().expect("the tool's folder");
    let path = format!("{}:{}", tool.display(), std::env::var("PATH").expect("PATH"));
    assert!(walkthrough().ends_with("\ncmp pedigrees back\n"));
    let script = folder.put("script", format!("set -ex\n{}", walkthrough()));
    let mut command = tool_at(Path::new("/bin/bash"));
    let mut session = Session::start(command.arg(script).current_dir(folder.path("")).env("PATH", path), None);
    let (first, second, third) = ("the first\n", "the second\n", "the third\n");
    for (prompt, keys) in [
        ("Passphrase for the new drive: ", first),
        ("The same again: ", first),
        ("Passphrase that the drive has: ", first),
        ("New passphrase, for key slot 2: ", second),
        ("The same again: ", second),
        ("Old passphrase: ", second),
        ("New passphrase, for key slot 3: ", third),
        ("The same again: ", third),
        (
            "Key slot 1 (cryptsetup's 0) of drive.img will be revoked; 1 other key slot stays in use. See first that one of them \
             opens ('mivrozh test --slot N'): one whose revocation was cut short opens nothing. Type yes to go on: ",
            "yes\n",
        ),
        ("Passphrase: ", third),
        ("Passphrase: ", third),
        ("Passphrase: ", third),
    ] {
        session.answer(prompt, keys);
    }
    let (status, shown) = session.end();
    assert_eq!(status, 0, "{shown}");
    assert!(shown.contains("key slot 3 opens") && shown.contains("4096 units written"), "{shown}");
    // By `slots`, and before the questions of change and revoke.
    assert_eq!(shown.matches("slot  cryptsetup's  state\r\n").count(), 3, "{shown}");
    assert_eq!(shown.matches("   3             2  enabled\r\n").count(), 2, "{shown}");
    assert_eq!(folder.get("back").len(), 2 << 20);
    assert!(folder.get("back") == folder.get("pedigrees"));
}
