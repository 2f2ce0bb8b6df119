//! The build script sees that a source was changed, added or deleted since the engine's library was built.
#[path = "../build/stale.rs"]
mod stale;

use std::fs::{self, File};
use std::path::{Path, PathBuf};
use std::time::{Duration, SystemTime};

// A tree like the repository's: crates/one/src with two sources, one of them in a module's folder, what `rt` leaves in crates/one/out,
// and a list of crates. All of it is an hour old, and the archive, which stands in out, half an hour. No name is one of Rattle's: rt
// would refuse such a file outside of the repository's own crates, and a second list of crates.
struct Tree {
    list: PathBuf,
    crates: PathBuf,
    archive: PathBuf,
}

fn set_age(path: &Path, age: Duration) {
    let time = SystemTime::now() - age;
    File::open(path).and_then(|file| file.set_modified(time)).expect("a time can be set");
}

impl Tree {
    fn new(name: &str) -> Tree {
        let root = Path::new(env!("CARGO_TARGET_TMPDIR")).join(name);
        let _ = fs::remove_dir_all(&root);
        let (crates, list) = (root.join("crates"), root.join("list.txt"));
        let (folder, out) = (crates.join("one/src"), crates.join("one/out"));
        let archive = out.join("libcapi.a");
        fs::create_dir_all(folder.join("part")).expect("folders");
        fs::create_dir_all(&out).expect("folders");
        let files =
            [folder.join("lib.txt"), folder.join("part/more.txt"), out.join("kept.txt"), list.clone(), archive.clone()];
        for file in &files {
            fs::write(file, "text").expect("a file");
        }
        let hour = Duration::from_secs(3600);
        for old in files.iter().chain([&folder.join("part"), &folder, &out, &crates.join("one"), &crates]) {
            set_age(old, hour);
        }
        set_age(&archive, hour / 2);
        Tree { list, crates, archive }
    }

    fn is_stale(&self) -> bool {
        stale::is_stale(&self.archive, &stale::sources(&self.list, &self.crates))
    }

    fn source(&self, name: &str) -> PathBuf {
        self.crates.join("one/src").join(name)
    }
}

#[test]
fn what_was_built_last_is_not_stale() {
    assert!(!Tree::new("fresh").is_stale());
}

#[test]
fn a_missing_library_is_stale() {
    let tree = Tree::new("missing");
    fs::remove_file(&tree.archive).expect("the archive was there");
    assert!(tree.is_stale());
}

#[test]
fn a_changed_source_is_noticed() {
    let tree = Tree::new("changed");
    set_age(&tree.source("lib.txt"), Duration::ZERO);
    assert!(tree.is_stale());
    let tree = Tree::new("listed");
    set_age(&tree.list, Duration::ZERO);
    assert!(tree.is_stale());
}

#[test]
fn a_deleted_source_is_noticed() {
    let tree = Tree::new("deleted");
    fs::remove_file(tree.source("part/more.txt")).expect("the source was there");
    assert!(tree.is_stale());
    let tree = Tree::new("folder");
    fs::remove_dir_all(tree.source("part")).expect("the folder was there");
    assert!(tree.is_stale());
}

#[test]
fn an_added_source_is_noticed_whatever_its_age() {
    let tree = Tree::new("added");
    let added = tree.source("added.txt");
    fs::write(&added, "text").expect("a file");
    set_age(&added, Duration::from_secs(7200));
    assert!(tree.is_stale());
}

#[test]
fn a_new_folder_of_sources_is_noticed() {
    let tree = Tree::new("specs");
    fs::create_dir(tree.crates.join("one/specs")).expect("a folder");
    assert!(tree.is_stale());
}

#[test]
fn what_rt_leaves_beside_the_sources_is_none() {
    let tree = Tree::new("out");
    set_age(&tree.crates.join("one/out/kept.txt"), Duration::ZERO);
    fs::write(tree.crates.join("one/out/new.txt"), "text").expect("a file");
    assert!(!tree.is_stale());
}
