//! Writes inputs for the program `icheck` into a folder, each with what is due for it by the model:
//! `icheck_cases FOLDER` makes NAME.in and NAME.out.

use std::path::Path;
use std::{env, fs, io};

use host::{inputs, output};

fn main() -> io::Result<()> {
    let folder = env::args_os().nth(1).expect("icheck_cases FOLDER");
    let folder = Path::new(&folder);
    for input in inputs::all() {
        fs::write(folder.join(format!("{}.in", input.name)), &input.bytes)?;
        fs::write(
            folder.join(format!("{}.out", input.name)),
            output::due(&input.bytes),
        )?;
    }
    Ok(())
}
