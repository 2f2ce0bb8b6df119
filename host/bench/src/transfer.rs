//! The tool's reading and writing of a large payload, on one processor and on all of them.

use crate::timing::by_turns;
use crate::{peers, tool, Folder, Outcome};
use std::path::Path;
use std::process::Command;

const MEBIBYTES: u64 = 256;
const RUNS: usize = 3;

pub fn transfers() -> Outcome {
    println!("The tool's transfers of {MEBIBYTES} MiB (512-bit key, default counts), megabytes a second:");
    let folder = Folder::new()?;
    let (key, image, data) = (folder.file("key", b"first")?, folder.file("drive", b"")?, folder.file("data", b"")?);
    for (path, mebibytes) in [(&image, MEBIBYTES + 2), (&data, MEBIBYTES)] {
        let file = std::fs::File::options().write(true).open(path);
        file.and_then(|file| file.set_len(mebibytes << 20)).map_err(|e| format!("{}: {e}", path.display()))?;
    }
    peers::run(Command::new(tool()?).args(["format", "--key-file"]).args([&key, &image]))?;
    for (name, source) in [("write", &data), ("read ", &data)] {
        let option = if name == "write" { "--in" } else { "--out" };
        // Reading comes second: it reads what was written, back into the file that it came from.
        let on = |processors: &[&str]| run(processors, name.trim(), &key, option, source, &image);
        let (one, all) = by_turns(RUNS, &mut || on(&["taskset", "-c", "0"]), &mut || on(&[]))?;
        let rate = |seconds: f64| (MEBIBYTES << 20) as f64 / seconds / 1e6;
        println!("  {name}  one processor {:6.1}   all {:6.1}   ratio {:5.2}", rate(one), rate(all), one / all);
    }
    Ok(())
}

fn run(before: &[&str], name: &str, key: &Path, option: &str, file: &Path, image: &Path) -> Outcome {
    let tool = tool()?;
    let mut command = match before {
        [first, rest @ ..] => {
            let mut command = Command::new(first);
            command.args(rest).arg(&tool);
            command
        }
        [] => Command::new(&tool),
    };
    command.args([name, "--key-file"]).arg(key).arg(option).arg(file);
    if name == "read" {
        command.args(["--force", "--units", &(MEBIBYTES * 2048).to_string()]);
    }
    peers::run(command.arg(image)).map(|_| ())
}
