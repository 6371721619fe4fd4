//! 100,000 drawn texts and byte strings: nothing panics, and each answer is the one that the library gives by another call.
//!
//! Each part prints its seed first. SSZ_SEED in the environment is the seed of all parts.

use std::collections::BTreeSet;
use std::env;
use std::io::{self, Write};
use std::time::{SystemTime, UNIX_EPOCH};

use ssz::{Error, Form, Proof, Schema, Session, Type};

const TEXTS: usize = 45_000;
const BRANCHES: usize = 5_000;
const NODES: usize = 5_000;
const BYTES: usize = 28_000;
const LINES: usize = 13_000;
const SCHEMAS: usize = 4_000;

const TYPES: &str = r#"{"ssz":1,"types":[
    ["Pair",{"container":[["a","uint64"],["b",{"list":["uint8",64]}]]}],
    ["Choice",{"union":[null,"uint64","Pair"]}],
    ["Rows",{"container":[["a","uint64"],["rows",{"list":["Pair",16]}],["bits",{"bitlist":70}],["few",{"bitvector":12}],
        ["sum","uint256"],["truth","boolean"],["u","Choice"],["four",{"vector":["uint16",4]}]]}],
    ["More",{"container":[["a","uint64"],["rows",{"list":["Pair",16]}],["new","Pair"]]}]]}"#;
const NAMES: [&str; 4] = ["Pair", "Rows", "More", "Choice"];
const PATHS: [&str; 28] = [
    "/", "/a", "/b", "/b/#len", "/b/3", "/b/63", "/b/64", "/rows", "/rows/#len", "/rows/1", "/rows/1/b", "/rows/15/b/#len", "/rows/16",
    "/bits", "/bits/69", "/bits/#len", "/few", "/few/11", "/few/12", "/sum", "/truth", "/u", "/u/#sel", "/u/#1", "/u/#2/b", "/four/3",
    "/new/a", "/#1",
];
const WRONG: [&str; 20] = [
    "", "a", "//", "/a/", "/ a", "/a ", "/a\t", "/a\n", "/a /b", "/A", "/rows/01", "/rows/+1", "/rows/-1", "/rows/18446744073709551616",
    "/#sel", "/#len", "/#256", "/b/#", "/\u{e9}", "/a\0",
];
const NUMBERS: [&str; 14] = [
    "0", "1", "2", "3", "8", "17", "002", "+2", "-1", "2_0", "340282366920938463463374607431768211455",
    "340282366920938463463374607431768211456", "1 2", "2.0",
];

/// Characters that are put into lines: digits, what stands between words, and what looks like either.
const CHARS: [char; 19] =
    ['0', '1', '9', 'a', 'A', 'g', 'x', '=', '/', ' ', '\t', '\n', '\r', '+', '-', '_', '\0', '\u{a0}', '\u{661}'];

extern "C" {
    fn ssz_verify(root: *const [u8; 32], line: *const u8, len: usize) -> u32;
    fn ssz_verify_branch(root: *const [u8; 32], leaf: *const [u8; 32], index: *const [u64; 2], branch: *const u8, len: usize) -> u32;
}

/// What the library says of a line: whether it leads to the root, or `None` of no proof.
fn judged(root: &[u8; 32], line: &str) -> Option<bool> {
    match unsafe { ssz_verify(root, line.as_ptr(), line.len()) } {
        0 => Some(true),
        10 => Some(false),
        9 => None,
        status => panic!("status {status}"),
    }
}

/// Numbers that follow from a seed (xorshift).
struct Draws(u64);

impl Draws {
    /// Begins a part, and prints its seed past the test harness, which keeps what tests print.
    fn begin(part: &str) -> Draws {
        let clock = SystemTime::now().duration_since(UNIX_EPOCH).expect("a clock").as_nanos() as u64;
        let seed = env::var("SSZ_SEED").map_or(clock, |seed| seed.parse().expect("SSZ_SEED is a number"));
        writeln!(io::stderr(), "{part}: SSZ_SEED={seed}").expect("output");
        Draws(seed ^ 0x9e37_79b9_7f4a_7c15 | 1)
    }

    fn next(&mut self) -> u64 {
        self.0 ^= self.0 << 13;
        self.0 ^= self.0 >> 7;
        self.0 ^= self.0 << 17;
        self.0.wrapping_mul(0x2545_f491_4f6c_dd1d)
    }

    fn below(&mut self, bound: usize) -> usize {
        (self.next() >> 32) as usize % bound.max(1)
    }

    fn one_in(&mut self, count: usize) -> bool {
        self.below(count) == 0
    }

    fn pick<T: Copy>(&mut self, from: &[T]) -> T {
        from[self.below(from.len())]
    }

    fn bytes(&mut self, len: usize) -> Vec<u8> {
        (0..len).map(|_| self.next() as u8).collect()
    }

    fn chunk(&mut self) -> [u8; 32] {
        let mut chunk = [0; 32];
        chunk.iter_mut().for_each(|byte| *byte = self.next() as u8);
        chunk
    }

    /// A generalized index, of all sizes alike, often beside a power of two.
    fn index(&mut self) -> u128 {
        let wide = u128::from(self.next()) << 64 | u128::from(self.next());
        let power = 1u128 << self.below(128);
        match self.below(8) {
            0 => self.below(4) as u128,
            1 => u128::MAX - self.below(3) as u128,
            2 => power,
            3 => power.wrapping_sub(1),
            _ => wide >> self.below(128),
        }
    }

    fn path(&mut self) -> &'static str {
        if self.one_in(4) {
            self.pick(&WRONG)
        } else {
            self.pick(&PATHS)
        }
    }

    /// Bytes of a value, or such of which some are wrong.
    fn data(&mut self, values: &[Vec<u8>]) -> Vec<u8> {
        let mut data = values[self.below(values.len())].clone();
        for _ in 0..self.pick(&[0, 0, 1, 1, 2, 5]) {
            let at = self.below(data.len() + 1);
            match self.below(4) {
                0 if at < data.len() => data[at] = self.next() as u8,
                1 if at < data.len() => drop(data.remove(at)),
                2 => data.truncate(at),
                _ => data.insert(at, self.pick(&[0, 1, 4, 255])),
            }
        }
        data
    }
}

fn schema() -> Schema {
    Schema::read(TYPES.as_bytes()).expect("a schema")
}

/// Encodings of values of a type: its default, and what random edits make of it.
fn values(session: &mut Session, draws: &mut Draws, name: &str) -> Vec<Vec<u8>> {
    session.new_default("E", name).expect("a default");
    let mut values = vec![session.get("E", "/").expect("bytes")];
    for _ in 0..60 {
        let (path, selector, len) = (draws.pick(&PATHS), draws.below(3) as u8, draws.pick(&[0, 1, 2, 8, 12, 13, 32]));
        let data = if draws.one_in(2) { draws.bytes(len) } else { vec![1; len] };
        let _ = match draws.below(4) {
            0 => session.choose("E", path, selector, &data),
            1 => session.set("E", path, &data),
            _ => session.append("E", path, &data),
        };
        values.push(session.get("E", "/").expect("bytes"));
    }
    session.forget("E").expect("a version");
    values
}

/// Roots, and the lines of proofs that lead to them.
fn lines(draws: &mut Draws) -> Vec<([u8; 32], String)> {
    let (schema, mut lines) = (schema(), Vec::new());
    let mut session = Session::start(&schema).expect("a session");
    for name in NAMES {
        let found = values(&mut session, draws, name);
        session.load("V", name, found.last().expect("a value")).expect("a version");
        let root = session.root("V").expect("a root");
        for count in 0..100 {
            let paths: Vec<&str> = (0..=count % 4).map(|_| draws.pick(&PATHS)).collect();
            lines.extend(session.prove("V", &paths).map(|proof| (root, proof.to_string())));
        }
        session.forget("V").expect("a version");
    }
    lines
}

/// A line that is spoilt at some places, or at none.
fn spoilt(draws: &mut Draws, line: &str) -> String {
    let mut line = line.to_owned();
    for _ in 0..draws.pick(&[0, 1, 1, 1, 2, 4]) {
        line = if draws.one_in(2) { with_other_char(draws, &line) } else { with_other_words(draws, &line) };
    }
    line
}

fn with_other_char(draws: &mut Draws, line: &str) -> String {
    let mut chars: Vec<char> = line.chars().collect();
    let at = draws.below(chars.len() + 1);
    // most of the line is digits of chunks: its end and its beginning are drawn more often
    let at = draws.pick(&[at, at, at.min(9), chars.len() - at.min(chars.len()).min(3)]);
    let other = draws.pick(&CHARS);
    match draws.below(3) {
        0 if at < chars.len() => chars[at] = other,
        1 if at < chars.len() => drop(chars.remove(at)),
        _ => chars.insert(at, other),
    }
    chars.into_iter().collect()
}

fn with_other_words(draws: &mut Draws, line: &str) -> String {
    let mut words: Vec<String> = line.split(' ').map(str::to_owned).collect();
    let (at, other) = (draws.below(words.len()), draws.below(words.len()));
    match draws.below(5) {
        0 => words.swap(at, other),
        1 => words.insert(at, words[other].clone()),
        2 => drop(words.remove(at)),
        3 => words.truncate(at),
        _ => {
            let digits = words[at].split_once('=').map_or("", |word| word.1).to_owned();
            words[at] = format!("{}={digits}", draws.pick(&NUMBERS));
        }
    }
    words.join(" ")
}

#[test]
fn texts_of_proofs() {
    let mut draws = Draws::begin("texts of proofs");
    let lines = lines(&mut draws);
    let mut counts = [0; 3];
    for _ in 0..TEXTS {
        let (root, line) = &lines[draws.below(lines.len())];
        let line = spoilt(&mut draws, line);
        let wanted = judged(root, &line);
        match line.parse::<Proof>() {
            Err(error) => assert_eq!((error, wanted), (Error::BadProof, None), "{line:?}"),
            Ok(proof) => {
                assert!(wanted.is_some(), "{line:?}");
                holds(&proof, root, wanted == Some(true));
                assert_eq!(words(&proof.to_string()), words(&line));
            }
        }
        counts[wanted.map_or(2, usize::from)] += 1;
    }
    assert!(counts.iter().all(|count| *count > TEXTS / 100), "too few of a kind: {counts:?}");
}

/// The words of a line in order, as they are printed.
fn words(line: &str) -> BTreeSet<String> {
    line.split_ascii_whitespace().map(str::to_ascii_lowercase).collect()
}

/// What holds of each proof, by a root to which it leads or not.
fn holds(proof: &Proof, root: &[u8; 32], leads: bool) {
    assert_eq!(proof.verify(root), Ok(leads));
    let line = proof.to_string();
    assert_eq!(judged(root, &line), Some(leads));
    assert_eq!(line.parse().as_ref(), Ok(proof));
    assert_eq!(Proof::new(proof.leaves(), proof.nodes()).as_ref(), Ok(proof));
    match proof.branch() {
        Err(error) => assert!(error == Error::NoBranch && proof.leaves().len() > 1),
        Ok((index, leaf, nodes)) => {
            assert_eq!(proof.leaves(), [(index, leaf)]);
            assert_eq!(nodes.len() as u32, 127 - index.leading_zeros());
            let branch = nodes.concat();
            let halves = [index as u64, (index >> 64) as u64];
            let status = unsafe { ssz_verify_branch(root, &leaf, &halves, branch.as_ptr(), branch.len()) };
            assert_eq!(status, if leads { 0 } else { 10 });
            assert_eq!(Proof::of_branch(index, leaf, &nodes).as_ref(), Ok(proof));
        }
    }
}

#[test]
fn branches_by_hand() {
    let mut draws = Draws::begin("branches by hand");
    let mut right = 0;
    for _ in 0..BRANCHES {
        let (index, leaf) = (draws.index(), draws.chunk());
        let levels = 128 - index.leading_zeros() as usize;
        let count = match draws.below(4) {
            0 => draws.below(260),
            1 => levels + draws.below(3),
            _ => levels,
        }
        .saturating_sub(1);
        let nodes: Vec<[u8; 32]> = (0..count).map(|_| draws.chunk()).collect();
        match Proof::of_branch(index, leaf, &nodes) {
            Err(error) => assert!(error == Error::BadProof && (index == 0 || count + 1 != levels), "{index} {count}"),
            Ok(proof) => {
                assert!(index > 0 && count + 1 == levels, "{index} {count}");
                assert_eq!(proof.branch(), Ok((index, leaf, nodes)));
                holds(&proof, &leaf, index == 1);
                right += 1;
            }
        }
    }
    assert!(right > BRANCHES / 10 && right < BRANCHES, "too few of a kind: {right}");
}

/// The helper indices of leaves from the greatest down, or `None` where these are no leaves of one proof.
fn helpers(leaves: &[u128]) -> Option<Vec<u128>> {
    let above = |index: &u128| (1..128).map(|level| *index >> level).filter(|index| *index > 0).collect::<Vec<_>>();
    let set: BTreeSet<u128> = leaves.iter().copied().collect();
    let inner: BTreeSet<u128> = leaves.iter().flat_map(above).collect();
    if leaves.is_empty() || set.len() < leaves.len() || set.contains(&0) || set.intersection(&inner).next().is_some() {
        return None;
    }
    let on_way = |index: &u128| set.contains(index) || inner.contains(index);
    let beside = set.union(&inner).filter(|index| **index > 1).map(|index| index ^ 1).filter(|index| !on_way(index));
    Some(beside.collect::<BTreeSet<u128>>().into_iter().rev().collect())
}

#[test]
fn nodes_by_hand() {
    let mut draws = Draws::begin("nodes by hand");
    let mut right = 0;
    for _ in 0..NODES {
        let base = draws.index();
        let near = |draws: &mut Draws| if draws.one_in(9) { draws.index() } else { base ^ draws.below(9) as u128 };
        let leaves: Vec<u128> = (0..draws.pick(&[0, 1, 1, 2, 2, 3, 4])).map(|_| near(&mut draws)).collect();
        let wanted = helpers(&leaves);
        let mut nodes = wanted.clone().unwrap_or_else(|| vec![draws.index(); draws.below(3)]);
        if draws.one_in(3) {
            match draws.below(3) {
                0 => nodes.push(draws.index()),
                1 => drop(nodes.pop()),
                _ => nodes.reverse(),
            }
        }
        let given = |of: &[u128], draws: &mut Draws| of.iter().map(|index| (*index, draws.chunk())).collect::<Vec<_>>();
        let (entries, beside) = (given(&leaves, &mut draws), given(&nodes, &mut draws));
        let made = Proof::new(&entries, &beside);
        assert_eq!(made.is_ok(), wanted == Some(nodes), "{leaves:?} {made:?}");
        if let Ok(proof) = made {
            assert!(proof.leaves().windows(2).all(|pair| pair[0].0 < pair[1].0) && proof.nodes() == beside);
            holds(&proof, &[7; 32], false);
            right += 1;
        }
    }
    assert!(right > NODES / 10 && right < NODES, "too few of a kind: {right}");
}

/// An answer, in no more room than it needs.
fn tight(answer: Result<Vec<u8>, Error>) -> Result<Vec<u8>, Error> {
    answer.map(|bytes| {
        assert!(bytes.capacity() <= bytes.len().max(64), "{} of {}", bytes.len(), bytes.capacity());
        bytes
    })
}

/// The error of a session for what calls on bytes say.
fn as_refused(error: Error) -> Error {
    match error {
        Error::BadPath => Error::Refused { code: 5 },
        Error::Absent => Error::Refused { code: 6 },
        error => error,
    }
}

#[test]
fn bytes_and_paths() {
    let mut draws = Draws::begin("bytes and paths");
    let schema = schema();
    let mut session = Session::start(&schema).expect("a session");
    let pools: Vec<_> = NAMES.iter().map(|name| values(&mut session, &mut draws, name)).collect();
    let mut valid = 0;
    for _ in 0..BYTES {
        let (at, path) = (draws.below(NAMES.len()), draws.path());
        let kind = schema.find(NAMES[at]).expect("a type");
        let data = draws.data(&pools[at]);
        match kind.check(&data) {
            Ok(()) => {
                valid += 1;
                parts_agree(&kind, &data, path);
                session_agrees(&mut session, &mut draws, &kind, NAMES[at], &data, path);
            }
            Err(error) => refused_alike(&kind, &mut session, NAMES[at], &data, path, error),
        }
    }
    assert!(valid > BYTES / 10 && valid < BYTES - BYTES / 10, "too few of a kind: {valid}");
}

/// What a type and a slice say of a part of bytes is the same.
fn parts_agree(kind: &Type<'_>, data: &[u8], path: &str) {
    let opened = kind.open(data).expect("valid bytes");
    let part = tight(kind.part(data, path));
    assert_eq!(tight(opened.part(path)), part, "{path:?}");
    match opened.place(path) {
        Ok(place) => assert_eq!(Ok(&data[place]), part.as_deref(), "{path:?}"),
        Err(Error::NoPlace) => assert!(part.expect("a part").len() <= 8),
        Err(error) => assert_eq!(Err(error), part, "{path:?}"),
    }
}

/// A session says the same of a part of bytes, and proves it.
fn session_agrees(session: &mut Session, draws: &mut Draws, kind: &Type<'_>, name: &str, data: &[u8], path: &str) {
    session.load("V", name, data).expect("valid bytes");
    let root = kind.root(data).expect("valid bytes");
    assert_eq!(session.root("V"), Ok(root));
    assert_eq!(tight(session.get("V", path)), kind.part(data, path).map_err(as_refused), "{path:?}");
    match (kind.gindex(path), session.prove("V", &[path])) {
        (Ok(index), Ok(proof)) => {
            assert_eq!(proof.leaves()[0].0, index);
            holds(&proof, &root, true);
        }
        // below an element that is absent the tree has no node
        (Ok(_), Err(error)) => assert_eq!((error.name(), kind.part(data, path)), ("NoNode", Err(Error::Absent)), "{path:?}"),
        (Err(error), proof) => assert_eq!(proof, Err(as_refused(error)), "{path:?}"),
    }
    let len = draws.pick(&[0, 1, 2, 8]);
    let part = draws.bytes(len);
    if session.set("V", path, &part).is_ok() {
        assert_eq!(session.get("V", path), Ok(part));
    }
    session.forget("V").expect("a version");
}

/// Of bytes that are no value each call says the same first fault, but of a path that does not fit the type.
fn refused_alike(kind: &Type<'_>, session: &mut Session, name: &str, data: &[u8], path: &str, error: Error) {
    assert!(matches!(error, Error::Invalid { code: 1..=11, position } if position <= data.len() as u64), "{error:?}");
    assert_eq!(kind.root(data), Err(error));
    assert_eq!(kind.open(data).err(), Some(error));
    assert_eq!(session.load("V", name, data), Err(error));
    assert_eq!(session.get("V", "/"), Err(Error::Refused { code: 3 }));
    assert_eq!(kind.part(data, path), Err(kind.gindex(path).err().unwrap_or(error)));
}

/// A statement's line, or one like it.
fn statement(draws: &mut Draws) -> String {
    let (name, other, kind, path) = (draws.pick(&["A", "B", "_c"]), draws.pick(&["A", "B", "_c", "d"]), draws.pick(&NAMES), draws.path());
    let blank = draws.pick(&[" ", " ", " ", " ", "  ", "\t", "\u{a0}", "\u{b}"]);
    let line = match draws.below(16) {
        0 | 1 => format!("new {name} {kind}"),
        2 => format!("lit {name} {kind} 0x0000000000000000{}", draws.pick(&["", "0c000000", "0c00000001"])),
        3 | 4 => format!("fork {name} {other}"),
        5 => format!("upgrade {name} {other} {kind}"),
        6 => format!("drop {name}"),
        7 => format!("set {name} {path} 0x0700000000000000"),
        8 => format!("append {name} {path} 0x07"),
        9 => format!("pop {name} {path}"),
        10 => format!("choose {name} {path} {}", draws.below(4)),
        11 => format!("# new {name} {kind}"),
        12 => format!("load {name} {kind} file"),
        13 => draws.pick(&["list", "hashes", "compact", "frob", "", "\r", "new", "fork A", "new A Pair B", "drop"]).to_owned(),
        14 => format!("gindex {kind} {path}"),
        _ => format!("json {name} {path}"),
    };
    line.replace(' ', blank)
}

/// A path or a number, or what is neither.
fn word(draws: &mut Draws) -> &'static str {
    match draws.below(8) {
        0 => draws.pick(&WRONG),
        1 => draws.pick(&NUMBERS),
        _ => draws.pick(&PATHS),
    }
}

#[test]
fn lines_of_sessions() {
    let mut draws = Draws::begin("lines of sessions");
    let mut session = Session::start(&schema()).expect("a session");
    let mut proved = 0;
    for _ in 0..LINES {
        let _ = session.run(&statement(&mut draws));
        let name = draws.pick(&["A", "A", "B", "B", "_c", "_c", "d", "1", ""]);
        let words: Vec<&str> = (0..draws.pick(&[0, 1, 1, 1, 1, 2])).map(|_| word(&mut draws)).collect();
        let by_call = session.prove(name, &words);
        let is_one_line = words.iter().all(|word| !word.is_empty() && !word.contains([' ', '\t']));
        let by_line = session.run(&format!("prove {name} {}", words.join(" ")));
        match by_line {
            Ok(line) if is_one_line => {
                proved += 1;
                assert_eq!(by_call, line.parse(), "{name} {words:?}");
            }
            _ => assert!(by_call.is_err(), "{name} {words:?}"),
        }
    }
    assert!(proved > LINES / 20, "too few proofs: {proved}");
}

#[test]
fn texts_of_schemas() {
    let mut draws = Draws::begin("texts of schemas");
    let mut read = 0;
    for _ in 0..SCHEMAS {
        let text = if draws.one_in(2) { with_other_char(&mut draws, TYPES) } else { with_other_piece(&mut draws) };
        match Schema::read(text.as_bytes()) {
            Err(error) => assert!(matches!(error, Error::BadSchema { code: 1..=15, .. }), "{error:?}"),
            Ok(schema) => {
                read += 1;
                assert_eq!(schema.text(), text.as_bytes());
                schema.names().expect("names").iter().for_each(|name| told(&schema.find(name).expect("a type")));
            }
        }
    }
    assert!(read > SCHEMAS / 50 && read < SCHEMAS, "too few of a kind: {read}");
}

/// The text of a schema with another piece in the place of one between quotes.
fn with_other_piece(draws: &mut Draws) -> String {
    let mut pieces: Vec<&str> = TYPES.split('"').collect();
    let at = draws.below(pieces.len());
    pieces[at] = draws.pick(&["uint8", "Pair", "a", "list", "vector", ":[", "],", "", "\\u0041", "\u{1f600}", "\0"]);
    pieces.join("\"")
}

/// What a type tells of itself.
fn told(kind: &Type<'_>) {
    kind.name().expect("a name");
    kind.size().expect("a size");
    assert_eq!(kind.gindex("/"), Ok(1));
    match kind.form().expect("a form") {
        Form::Container(fields) => assert!(fields.iter().all(|(name, _)| kind.gindex(&format!("/{name}")).is_ok())),
        Form::Union(options) => assert!(!options.is_empty()),
        _ => (),
    }
    let _ = kind.check(&[]);
}

#[test]
fn the_parts_are_a_hundred_thousand_cases() {
    assert_eq!(TEXTS + BRANCHES + NODES + BYTES + LINES + SCHEMAS, 100_000);
}
