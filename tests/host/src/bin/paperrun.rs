//! What grouprun does, by the paper's implementation: reads a table from standard input and prints its run. With the argument `quiet` what quietrun does.
use host::paper::mode::Mode;
use host::paper::printed::printed;
use std::io::{self, Read, Write};

fn main() -> io::Result<()> {
    let arguments: Vec<String> = std::env::args().skip(1).collect();
    let mode = match arguments.iter().map(String::as_str).collect::<Vec<&str>>()[..] {
        [] => Mode::Always,
        ["quiet"] => Mode::Quiet,
        _ => panic!("usage: paperrun [quiet]"),
    };
    let mut table = Vec::new();
    io::stdin().lock().read_to_end(&mut table)?;
    io::stdout().lock().write_all(printed(mode, &table).as_bytes())
}
