// Whether the engine's library is older than its sources. The build script and a test have this module.
use std::path::{Path, PathBuf};
use std::time::SystemTime;

// The folders of a crate that a check reads. Beside them stands `out`, which `rt` changes with each command.
const PARTS: [&str; 3] = ["src", "specs", "proofs"];

/// What the library is made of: the list of crates, and the folders of sources that each crate has.
pub fn sources(list: &Path, crates: &Path) -> Vec<PathBuf> {
    let folders = crates.read_dir().into_iter().flatten().flatten();
    let parts = folders.flat_map(|folder| PARTS.map(|part| folder.path().join(part)));
    parts.filter(|part| part.is_dir()).chain([list.to_path_buf()]).collect()
}

/// Whether the archive is missing, or a source was changed, added or deleted after it was built.
pub fn is_stale(archive: &Path, sources: &[PathBuf]) -> bool {
    match changed(archive) {
        Some(built) => sources.iter().filter_map(|source| newest(source)).any(|source| source > built),
        None => true,
    }
}

fn changed(path: &Path) -> Option<SystemTime> {
    path.metadata().ok()?.modified().ok()
}

// The latest change of a file or folder, or of anything under the folder. A file that was deleted has changed its
// folder.
fn newest(path: &Path) -> Option<SystemTime> {
    let entries = path.read_dir().into_iter().flatten().flatten();
    entries.filter_map(|entry| newest(&entry.path())).chain(changed(path)).max()
}
