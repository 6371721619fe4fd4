//! Reads cases and prints of each what the library says, so that it can be compared with what other languages get: c/agree.c says
//! which words a case has, and what is printed.
//!
//!     cargo run --example agree SCHEMA < cases

use std::io::{self, BufRead, Write};
use std::{env, fs};

use ssz::{Error, Result, Schema, Session};

fn unhex(digits: &str) -> Vec<u8> {
    let digits = if digits == "-" { "" } else { digits };
    (0..digits.len() / 2).map(|at| u8::from_str_radix(&digits[2 * at..2 * at + 2], 16).expect("digits")).collect()
}

fn hex(bytes: &[u8]) -> String {
    bytes.iter().map(|byte| format!("{byte:02x}")).collect()
}

fn show(schema: &Schema, session: &mut Session, words: &[&str], to: &mut impl Write) -> Result<()> {
    let (name, value, other, path, part) = match *words {
        [name, value, other, path, part] => (name, value, other, path, part),
        _ => panic!("a case has five words"),
    };
    let kind = schema.find(name)?;
    let value = unhex(value);
    writeln!(to, "root 0x{}", hex(&kind.root(&value)?)).expect("output");
    match kind.check(&unhex(other)) {
        Ok(()) => writeln!(to, "valid"),
        Err(Error::Invalid { code, position }) => writeln!(to, "F{code} {position}"),
        Err(other) => return Err(other),
    }
    .expect("output");
    session.load("V", name, &value)?;
    session.set("V", path, &unhex(part))?;
    writeln!(to, "root 0x{}", hex(&session.root("V")?)).expect("output");
    writeln!(to, "bytes 0x{}", hex(&session.get("V", "/")?)).expect("output");
    writeln!(to, "{}", session.prove("V", &[path])?).expect("output");
    session.forget("V")
}

fn main() {
    let file = env::args().nth(1).expect("the file of a schema");
    let text = fs::read(file).expect("a schema that can be read");
    let schema = Schema::read(&text).expect("a schema");
    let mut session = Session::start(&schema).expect("a session");
    let mut to = io::BufWriter::new(io::stdout().lock());
    for line in io::stdin().lock().lines() {
        let line = line.expect("a line");
        let words: Vec<&str> = line.split_whitespace().collect();
        show(&schema, &mut session, &words, &mut to).expect("a case");
    }
}
