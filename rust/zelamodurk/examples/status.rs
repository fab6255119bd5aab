//! Whether the first frame of standard input is good. Any bytes may be handed over: the core refuses by a number.
use std::io::{self, Read};
use zelamodurk::{frame, Refusal};

fn is_good(bytes: &[u8]) -> Result<bool, Refusal> {
    let header = frame::probe(bytes)?;
    match bytes.get(..header.bytes) {
        Some(whole) => Ok(frame::crc_status(whole, header.codec)?.is_good()),
        None => Ok(false), // it is cut off
    }
}

fn main() -> io::Result<()> {
    let mut bytes = Vec::new();
    io::stdin().take(4096).read_to_end(&mut bytes)?; // no frame is longer
    match is_good(&bytes) {
        Ok(good) => println!("{}", if good { "good" } else { "bad" }),
        Err(refusal) => println!("{refusal}"),
    }
    Ok(())
}
