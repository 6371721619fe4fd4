//! The calls of ssz.rs over files, printed as the program `ssz` prints them; the replies of a session
//! to the lines of a script; and the names of all types.
//!
//!     example SCHEMA TYPE FILE PATH PROOF
//!     example SCHEMA SCRIPT
//!     example SCHEMA

mod ssz;

use std::io::{self, Write};
use std::process::ExitCode;
use std::{env, fs};

use ssz::{Error, Schema, Session, Status, verify};

fn hex(bytes: &[u8]) -> String {
    bytes.iter().map(|byte| format!("{byte:02x}")).collect()
}

// The line that the program prints.
fn line_of(error: Error) -> String {
    let Error {
        status,
        code,
        position,
    } = error;
    match status {
        Status::Invalid => format!("invalid F{code} {position}"),
        Status::BadSchema if code < 3 || code == 15 => format!("schema S{code}"),
        Status::BadSchema => format!("schema S{code} {position}"),
        Status::NoType => "refused 0 2 NoType".into(),
        Status::BadPath => "refused 0 5 BadPath".into(),
        Status::Absent => "refused 0 6 Absent".into(),
        Status::BadProof => "badproof".into(),
        other => format!("{other:?}"),
    }
}

// Prints the root, the index, the part and the verdict, and answers whether the proof holds.
fn show(schema: &[u8], name: &str, value: &[u8], path: &str, proof: &[u8]) -> Result<bool, Error> {
    let schema = Schema::read(schema)?;
    let kind = schema.find(name)?;
    kind.check(value)?;
    let root = kind.root(value)?;
    println!("root 0x{}", hex(&root));
    println!("gindex {}", kind.gindex(path)?);
    let part = kind.part(value, path)?;
    println!("bytes 0x{}", hex(&part));
    assert_eq!(kind.open(value)?.part(path)?, part);
    let holds = verify(&root, proof)?;
    println!("{}", if holds { "valid" } else { "unlike" });
    Ok(holds)
}

// Prints the replies of a session to the lines of a script, and answers whether none was refused.
fn run(schema: &[u8], script: &[u8]) -> Result<bool, Error> {
    let mut session = Session::start_on(&Schema::read(schema)?)?;
    let mut accepted = true;
    for line in script.split(|byte| *byte == b'\n') {
        match session.run(line) {
            Ok(()) => {}
            Err(Error {
                status: Status::Refused,
                ..
            }) => accepted = false,
            Err(why) => return Err(why),
        }
        io::stdout().write_all(&session.reply()?).expect("stdout");
    }
    Ok(accepted)
}

// Prints the names of all types.
fn name(schema: &[u8]) -> Result<bool, Error> {
    let names = Schema::read(schema)?.names()?;
    io::stdout().write_all(&names).expect("stdout");
    Ok(true)
}

fn main() -> ExitCode {
    let words: Vec<String> = env::args().collect();
    let read = |name: &String| fs::read(name).expect(name);
    let done = match &words[..] {
        [_, schema] => name(&read(schema)),
        [_, schema, script] => run(&read(schema), &read(script)),
        [_, schema, name, file, path, proof] => {
            show(&read(schema), name, &read(file), path, &read(proof))
        }
        _ => {
            eprintln!("usage: example SCHEMA TYPE FILE PATH PROOF");
            eprintln!("       example SCHEMA SCRIPT");
            eprintln!("       example SCHEMA");
            return ExitCode::from(2);
        }
    };
    match done {
        Ok(true) => ExitCode::SUCCESS,
        Ok(false) => ExitCode::from(1),
        Err(error) => {
            println!("{}", line_of(error));
            ExitCode::from(if error.status == Status::BadSchema { 3 } else { 1 })
        }
    }
}
