//! A root, an index and a part of bytes, and a session that edits a value and proves it.
//!
//!     session SCHEMA

mod ssz;

use ssz::{Error, Schema, Session, verify};

// The root's first byte, the index of `/root`, and how long `/epoch` is, of 40 zero bytes.
fn show(text: &[u8]) -> Result<(u8, u128, usize), Error> {
    let bytes = [0; 40];
    let schema = Schema::read(text)?;
    let checkpoint = schema.find("Checkpoint")?;
    checkpoint.check(&bytes)?;
    let root = checkpoint.root(&bytes)?;
    Ok((root[0], checkpoint.gindex("/root")?, checkpoint.part(&bytes, "/epoch")?.len()))
}

// Whether the proof of an edited value leads to the root of its bytes.
fn edit(text: &[u8]) -> Result<bool, Error> {
    let mut bytes = [0; 40];
    bytes[0] = 7;
    let root = Schema::read(text)?.find("Checkpoint")?.root(&bytes)?;
    let mut session = Session::start(text)?;
    session.run(b"new C Checkpoint")?;
    session.run(b"set C /epoch 0x0700000000000000")?;
    session.run(b"prove C /epoch")?;
    verify(&root, &session.reply()?)
}

fn main() -> Result<(), Box<dyn std::error::Error>> {
    let path = std::env::args().nth(1).ok_or("session SCHEMA")?;
    let text = std::fs::read(path)?;
    println!("{:?}", show(&text));
    println!("{:?}", edit(&text));
    Ok(())
}
