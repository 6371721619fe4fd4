//! Memory that loops take stops growing: what is dropped, given up and refused is given back.

use std::fs;

use ssz::{Error, Proof, Schema, Session};

const TYPES: &[u8] = br#"{"ssz":1,"types":[["Pair",{"container":[["a","uint64"],["b",{"list":["uint64",1048576]}]]}]]}"#;
const ROUNDS: usize = 200;
/// Far less than what one kind of object of a round takes in as many rounds.
const SPARE: usize = 8 << 20;

/// The bytes of memory that the process has.
fn resident() -> usize {
    let pages = fs::read_to_string("/proc/self/statm").expect("Linux tells it");
    pages.split(' ').nth(1).and_then(|pages| pages.parse::<usize>().ok()).expect("a number") * 4096
}

/// A value of 160 KB.
fn data() -> Vec<u8> {
    [7, 0, 0, 0, 0, 0, 0, 0, 12, 0, 0, 0].into_iter().chain((0..160_000).map(|place| place as u8)).collect()
}

/// Reads, asks and drops each kind of object, with calls that fail between them.
fn objects(data: &[u8]) {
    let schema = Schema::read(TYPES).expect("a schema").share().expect("a share");
    assert!(Schema::read(&TYPES[1..]).is_err());
    let kind = schema.find("Pair").expect("a type");
    let opened = kind.open(data).expect("a slice");
    assert_eq!(opened.part("/b").expect("a part"), data[12..]);
    assert!(kind.open(&data[1..]).is_err() && opened.part("/c").is_err() && kind.part(data, "/b/20000") == Err(Error::Absent));
    let mut session = Session::start(&schema).expect("a session");
    session.load("V", "Pair", data).expect("a version");
    let root = session.root("V").expect("a root");
    let indices: Vec<u128> = (0..500).map(|place| (6 << 18) + 4 * place).collect();
    let line = session.prove_at("V", &indices).expect("a proof").to_string();
    assert_eq!(line.parse::<Proof>().expect("a proof").verify(&root), Ok(true));
    assert!(line.replace("=0x", "=0X").parse::<Proof>().is_err());
}

/// Edits a version in many ways, and gives up what it made.
fn edits(session: &mut Session, data: &[u8]) {
    session.load("W", "Pair", data).expect("a version");
    session.fork("W", "X").expect("a version");
    session.set("X", "/b", &data[20..]).expect("a list");
    session.append("X", "/b", &[1; 8]).expect("an element");
    assert!(session.append("X", "/b", &[1; 7]).is_err() && session.load("X", "Pair", data).is_err() && session.run("frob").is_err());
    assert_eq!(session.get("X", "/b").expect("a list").len(), data.len() - 12);
    session.root("X").expect("a root");
    session.forget("W").expect("a version");
    session.forget("X").expect("a version");
    session.compact().expect("memory");
}

#[test]
fn loops_stop_growing() {
    let (data, schema) = (data(), Schema::read(TYPES).expect("a schema"));
    let mut session = Session::start(&schema).expect("a session");
    let nodes = session.nodes().expect("a number");
    let mut rounds = |count| {
        for _ in 0..count {
            objects(&data);
            edits(&mut session, &data);
            assert_eq!(session.nodes(), Ok(nodes));
        }
        resident()
    };
    let (first, last) = (rounds(ROUNDS / 4), rounds(ROUNDS));
    assert!(last < first + SPARE, "{first} bytes, and after {ROUNDS} rounds more {last}");
}
