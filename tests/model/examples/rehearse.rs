//! Prints what the model makes of scripts on standard input, each ended by a NUL; what is printed for each has a NUL behind it.

use std::io::{self, Read, Write};

fn main() -> io::Result<()> {
    let mut scripts = Vec::new();
    io::stdin().read_to_end(&mut scripts)?;
    let mut printed = Vec::new();
    for script in scripts.split_inclusive(|&byte| byte == 0) {
        printed.extend(model::rehearsal::rehearse(&script[..script.len() - 1]));
        printed.push(0);
    }
    io::stdout().write_all(&printed)
}
