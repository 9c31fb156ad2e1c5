// The reference bench as a program: a script on standard input, its output on standard output.

mod world;

use std::io::{self, Read, Write};

fn main() -> io::Result<()> {
    let mut script = vec![];
    io::stdin().read_to_end(&mut script)?;
    let mut world = world::World::new();
    let output: Vec<u8> = world::lines(&script).into_iter().flat_map(|line| world.line(line)).collect();
    io::stdout().write_all(&output)
}
