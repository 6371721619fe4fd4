//! The driver of Rust for hostile/doors.py, over the crate's public calls: reads steps, a line each, and answers each by a line.
//!
//!     door < steps
//!
//! `round TEXT` begins with a schema and an empty session; every other line is a step and its words, as hexadecimal digits, `-` for
//! none. The answer `-` says that the crate has no way to say the step: its texts are UTF-8.

use std::io::{self, BufRead, Write};
use std::str::from_utf8;

use ssz::{Error, Form, Proof, Result, Schema, Session};

/// A schema and a session on it.
struct Round {
    schema: Schema,
    session: Session,
}

/// What a step is answered; `None` where a text is none.
type Answer = Option<Result<String>>;

fn hex(bytes: &[u8]) -> String {
    bytes.iter().map(|byte| format!("{byte:02x}")).collect()
}

fn hexed(bytes: &[u8]) -> String {
    format!("ok 0x{}", hex(bytes))
}

fn done((): ()) -> String {
    "ok".to_owned()
}

fn unhex(digits: &str) -> Vec<u8> {
    let digits = if digits == "-" { "" } else { digits };
    (0..digits.len() / 2).map(|at| u8::from_str_radix(&digits[2 * at..2 * at + 2], 16).expect("digits")).collect()
}

/// An error as ssz.h names its status.
fn said(error: &Error) -> String {
    match error {
        Error::NoType => "NO_TYPE".to_owned(),
        Error::TooLong => "TOO_LONG".to_owned(),
        Error::Invalid { code, position } => format!("INVALID {code} {position}"),
        Error::BadSchema { code, definition } => format!("BAD_SCHEMA {code} {definition}"),
        Error::Syntax => "SYNTAX".to_owned(),
        Error::BadPath => "BAD_PATH".to_owned(),
        Error::Absent => "ABSENT".to_owned(),
        Error::NoPlace => "NO_PLACE".to_owned(),
        Error::BadProof => "BAD_PROOF".to_owned(),
        Error::Refused { code } => format!("REFUSED {code}"),
        Error::NoFile => "NO_FILE".to_owned(),
        other => format!("{other:?}"),
    }
}

fn shown(result: Result<String>) -> String {
    result.unwrap_or_else(|error| {
        // What people are told of an error never panics.
        let _ = (error.to_string(), error.name());
        said(&error)
    })
}

/// An option, or a result of which the error says as much as None.
trait Perhaps<T> {
    fn perhaps(self) -> Option<T>;
}

impl<T> Perhaps<T> for Option<T> {
    fn perhaps(self) -> Option<T> {
        self
    }
}

impl<T> Perhaps<T> for Result<T> {
    fn perhaps(self) -> Option<T> {
        self.ok()
    }
}

fn root_of(word: &[u8]) -> [u8; 32] {
    word.try_into().expect("a root of 32 bytes")
}

fn verdict(result: Result<bool>) -> Result<String> {
    result.map(|leads| if leads { "ok" } else { "UNLIKE" }.to_owned())
}

fn verify(root: &[u8], text: &[u8]) -> Answer {
    let text = from_utf8(text).ok()?;
    Some(text.parse::<Proof>().and_then(|proof| verdict(proof.verify(&root_of(root)))))
}

/// The branch of the proof that a text says; and the proof that is printed is the same one.
fn branch_of(text: &[u8]) -> Answer {
    let proof: Proof = match from_utf8(text).ok()?.parse() {
        Ok(proof) => proof,
        Err(error) => return Some(Err(error)),
    };
    assert_eq!(proof.to_string().parse().as_ref(), Ok(&proof), "a proof is printed as another one");
    assert_eq!(Proof::new(proof.leaves(), proof.nodes()).as_ref(), Ok(&proof), "a proof's nodes are another one");
    Some(Ok(match proof.branch().perhaps() {
        None => "NO_BRANCH".to_owned(),
        Some((index, leaf, nodes)) => {
            assert_eq!(Proof::of_branch(index, leaf, &nodes).perhaps().as_ref(), Some(&proof), "a branch is of another proof");
            format!("ok {index} {} {}", hex(&leaf), hex(&nodes.concat()))
        }
    }))
}

/// The verdict on entries: a root, how many leaves there are, and then of each leaf and node its index and its chunk.
fn entries(words: &[Vec<u8>]) -> Answer {
    let nodes: Option<Vec<(u128, [u8; 32])>> =
        words[2..].chunks(2).map(|node| Some((from_utf8(&node[0]).ok()?.parse().ok()?, root_of(&node[1])))).collect();
    let (nodes, leaves) = (nodes?, from_utf8(&words[1]).ok()?.parse().ok()?);
    Some(Proof::new(&nodes[..leaves], &nodes[leaves..]).and_then(|proof| verdict(proof.verify(&root_of(&words[0])))))
}

/// The verdict on a branch; what is no branch of its index is told as BRANCH.
fn branch(root: &[u8], index: &[u8], leaf: &[u8], nodes: &[u8]) -> Answer {
    let (index, chunks) = (from_utf8(index).ok()?.parse().ok()?, nodes.chunks_exact(32));
    let is_whole = chunks.remainder().is_empty();
    let nodes: Vec<[u8; 32]> = chunks.map(root_of).collect();
    Some(match Proof::of_branch(index, root_of(leaf), &nodes).perhaps() {
        Some(proof) if is_whole => verdict(proof.verify(&root_of(root))),
        _ => Ok("BRANCH".to_owned()),
    })
}

/// A statement, and the reply as it stands.
fn run(session: &mut Session, line: &[u8]) -> Answer {
    let line = from_utf8(line).ok()?;
    Some(session.run(line).map(|reply| format!("reply {}", reply.strip_suffix('\n').unwrap_or(&reply))))
}

fn describe(schema: &Schema, name: &str) -> Result<String> {
    let kind = schema.find(name)?;
    let size = kind.size()?.unwrap_or(0);
    let (form, limit, parts, fields) = match kind.form()? {
        Form::Boolean => ("boolean", None, 0, None),
        Form::Uint => ("uint", None, 0, None),
        Form::Container(fields) => {
            let names: Vec<String> = fields.iter().map(|field| field.0.clone()).collect();
            ("container", None, fields.len(), Some(names.join(",")))
        }
        Form::Vector(_, length) => ("vector", Some(length), 1, None),
        Form::List(_, limit) => ("list", Some(limit), 1, None),
        Form::Bitvector(length) => ("bitvector", Some(length), 0, None),
        Form::Bitlist(limit) => ("bitlist", Some(limit), 0, None),
        Form::Union(options) => ("union", None, options.len(), None),
        _ => ("unknown", None, 0, None),
    };
    let limit = limit.map_or("none".to_owned(), |limit| limit.to_string());
    let first = kind.name()?.unwrap_or_default();
    assert!(!schema.types()?.is_empty(), "a type that was asked for is not there");
    Ok(format!("ok {form} {size} {limit} {parts} {} {first}", fields.unwrap_or("none".to_owned())))
}

/// Of each path the part and its place; the schema may be gone by then.
fn slice(schema: &Schema, name: &str, data: &[u8], paths: &[&str]) -> Result<String> {
    let opened = schema.share()?.find(name)?.open(data)?;
    let mut words = vec!["ok".to_owned()];
    for path in paths {
        let place = opened.place(path).map(|place| format!("ok {} {}", place.start, place.len()));
        words.push(format!("{} / {}", shown(opened.part(path).map(|part| hexed(&part))), shown(place)));
    }
    Ok(words.join(" "))
}

/// What a statement on a value of its own replies.
fn by_session(schema: &Schema, name: &str, lines: [&str; 2]) -> Result<String> {
    schema.find(name)?;
    let mut session = Session::start(schema)?;
    session.run(lines[0])?;
    let reply = session.run(lines[1])?;
    Ok(reply.trim_end().split_once(' ').map_or(reply.clone(), |words| format!("ok {}", words.1)))
}

/// The steps that ask the schema alone.
fn schema_step(schema: &Schema, op: &str, words: &[Vec<u8>]) -> Answer {
    let text = |place: usize| words.get(place).and_then(|word| from_utf8(word).ok());
    let name = text(0)?;
    Some(match op {
        "check" => schema.find(name).and_then(|kind| kind.check(&words[1])).map(done),
        "root" => schema.find(name).and_then(|kind| kind.root(&words[1])).map(|root| hexed(&root)),
        "gindex" => {
            let path = text(1)?;
            schema.find(name).and_then(|kind| kind.gindex(path)).map(|index| format!("ok {index}"))
        }
        "part" => {
            let path = text(2)?;
            schema.find(name).and_then(|kind| kind.part(&words[1], path)).map(|part| hexed(&part))
        }
        "slice" => {
            let paths: Option<Vec<&str>> = (2..words.len()).map(text).collect();
            slice(schema, name, &words[1], &paths?)
        }
        "json" => by_session(schema, name, [&format!("lit V {name} 0x{}", hex(&words[1])), "json V /"]),
        "default" => by_session(schema, name, [&format!("new V {name}"), "bytes V /"]),
        "describe" => describe(schema, name),
        "share" => schema.share().and_then(|first| first.share()?.find(name)?.check(&words[1])).map(done),
        "long" => schema.find(name).and_then(|kind| kind.gindex(&"/".repeat((1 << 26) + 1))).map(|index| format!("ok {index}")),
        _ => return None,
    })
}

/// The steps of the round's session.
fn session_step(session: &mut Session, op: &str, words: &[Vec<u8>]) -> Answer {
    let texts: Option<Vec<&str>> = words.iter().take(2).map(|word| from_utf8(word).ok()).collect();
    let texts = texts?;
    let text = |place: usize| texts.get(place).copied().unwrap_or("");
    let (name, path) = (text(0), text(1));
    Some(match op {
        "new" => session.new_default(name, path).map(done),
        "load" => session.load(name, path, &words[2]).map(done),
        "set" => session.set(name, path, &words[2]).map(done),
        "append" => session.append(name, path, &words[2]).map(done),
        "pop" => session.pop(name, path).map(done),
        "choose" => session.choose(name, path, from_utf8(&words[2]).ok()?.parse().ok()?, &words[3]).map(done),
        "fork" => session.fork(name, path).map(done),
        "upgrade" => session.upgrade(name, path, from_utf8(&words[2]).ok()?).map(done),
        "drop" => session.forget(name).map(done),
        "compact" => session.compact().map(done),
        "get" => session.get(name, path).map(|part| hexed(&part)),
        "len" => session.len(name, path).map(|count| format!("ok {count}")),
        "nodes" => session.nodes().map(|count| format!("ok {count}")),
        "sroot" => session.root(name).map(|root| hexed(&root)),
        "prove" => session.prove(name, &[path]).map(|proof| format!("ok {proof}")),
        _ => return prove(session, op, words),
    })
}

/// A proof of many places, by paths or by indices.
fn prove(session: &mut Session, op: &str, words: &[Vec<u8>]) -> Answer {
    let texts: Option<Vec<&str>> = words.iter().map(|word| from_utf8(word).ok()).collect();
    let (name, asked) = (texts.as_ref()?.first().copied()?, texts.as_ref()?.get(1..)?.to_vec());
    let proof = if op == "prove_all" {
        let indices: Vec<u128> = asked.iter().map(|index| index.parse().expect("an index")).collect();
        session.prove_at(name, &indices)
    } else {
        session.prove(name, &asked)
    };
    Some(proof.map(|proof| format!("ok {proof}")))
}

const OF_SESSION: &[&str] = &[
    "new", "load", "set", "append", "pop", "choose", "fork", "upgrade", "drop", "compact", "get", "len", "nodes", "sroot", "prove",
    "prove_all", "prove_paths",
];

fn answer(round: &mut Round, op: &str, words: &[Vec<u8>]) -> Answer {
    match op {
        "verify" => verify(&words[0], &words[1]),
        "branch_of" => branch_of(&words[0]),
        "branch" => branch(&words[0], &words[1], &words[2], &words[3]),
        "entries" => entries(words),
        "schema" => Some(Schema::read(&words[0]).map(|_| "ok".to_owned())),
        "names" => Some(round.schema.names().map(|names| format!("ok {}", names.join(" ")))),
        "run" => run(&mut round.session, &words[0]),
        _ if OF_SESSION.contains(&op) => session_step(&mut round.session, op, words),
        _ => schema_step(&round.schema, op, words),
    }
}

fn begin(text: &[u8]) -> Result<Round> {
    let schema = Schema::read(text)?;
    assert_eq!(schema.text(), text, "a schema has another text");
    Ok(Round { session: Session::start(&schema)?, schema })
}

fn main() {
    let (mut to, mut round) = (io::stdout().lock(), None);
    for line in io::stdin().lock().lines() {
        let line = line.expect("a line");
        let mut parts = line.split(' ');
        let op = parts.next().unwrap_or("");
        let words: Vec<Vec<u8>> = parts.map(unhex).collect();
        let said = if op == "round" {
            round = None;
            let begun = begin(&words[0]);
            let said = begun.as_ref().err().map_or("ok".to_owned(), said);
            round = begun.ok();
            said
        } else {
            answer(round.as_mut().expect("a round"), op, &words).map_or("-".to_owned(), shown)
        };
        writeln!(to, "{said}").and_then(|()| to.flush()).expect("output");
    }
}
