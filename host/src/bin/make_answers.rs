//! Writes the stored answers anew. The paths and the runs need the original Rust: without it this program
//! ends with an error.

use std::path::Path;
use std::{fs, io};

use host::{answers, stored_runs};

fn main() -> io::Result<()> {
    let host = Path::new(env!("CARGO_MANIFEST_DIR"));
    fs::write(host.join("answers/ncname.txt"), answers::ncname_file())?;
    let stored_paths = host.join("../crates/stored_paths");
    let file = answers::paths_file();
    let count = answers::read_paths(&file).len();
    fs::write(stored_paths.join("stdin"), file)?;
    fs::write(
        stored_paths.join("stdout"),
        format!("{count} answers, 0 differ\n"),
    )?;
    let folder = host.join("../crates/stored_runs");
    let runs = stored_runs::made();
    fs::write(folder.join("stdin"), stored_runs::file(&runs))?;
    fs::write(folder.join("stdout"), stored_runs::replayed(&runs))
}
