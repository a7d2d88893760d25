//! A weighing bay at a serial line: takes the bytes in whatever parts they come, from a port
//! or a file that is named or from standard input, and prints at the end what came of them
//! and the eight rows. Copies go to standard error, as a printer would get them.
//!
//!     cargo run --example serial -- ../../c/serial.in
//!     stty -F /dev/ttyS0 raw 9600 && cargo run --example serial -- /dev/ttyS0

use std::error::Error;
use std::io::{self, Read, Write};

fn main() -> Result<(), Box<dyn Error>> {
    let mut line: Box<dyn Read> = match std::env::args_os().nth(1) {
        Some(name) => Box::new(std::fs::File::open(name)?),
        None => Box::new(io::stdin()),
    };
    let mut terminal = px8::Terminal::open();
    let mut stream = terminal.stream();
    let mut part = [0; 64];
    loop {
        match line.read(&mut part)? {
            0 => break,
            length => stream.write_all(&part[..length])?,
        }
        io::stderr().write_all(&stream.take_printed())?;
    }
    let reply = stream.close()?;
    println!("{}", reply.answer);
    if let Some(refusal) = reply.answer.refusal() {
        println!("{refusal}");
    }
    print!("{terminal}");
    Ok(())
}
