//! What comes in by the crate's doors: texts of proofs, branches, paths and names, and the room of what goes out.

use std::panic::catch_unwind;

use ssz::{Error, Proof, Schema, Session};

const TYPES: &[u8] = br#"{"ssz":1,"types":[
    ["Pair",{"container":[["a","uint64"],["b",{"list":["uint8",64]}]]}],
    ["Rows",{"container":[["a","uint64"],["rows",{"list":["Pair",16]}],["long",{"list":["uint8",1048576]}]]}]]}"#;

/// A chunk of zeros, as a line has it.
const C: &str = "0x0000000000000000000000000000000000000000000000000000000000000000";

fn schema() -> Schema {
    Schema::read(TYPES).expect("a schema")
}

fn session() -> Session {
    let mut session = Session::start(&schema()).expect("a session");
    session.new_default("V", "Pair").expect("a value");
    session
}

/// What the crate says of a line in which each `C` is a chunk.
fn read(line: &str) -> Result<Proof, Error> {
    line.replace('C', C).parse()
}

#[test]
fn a_line_with_index_0_is_no_proof() {
    assert_eq!(read("proof 0=C / 1=C").err(), Some(Error::BadProof));
    assert_eq!(read("proof 0=C /").err(), Some(Error::BadProof));
    assert_eq!(read("proof 2=C / 0=C").err(), Some(Error::BadProof));
}

#[test]
fn no_branch_of_a_line_panics() {
    for line in ["proof 0=C / 1=C", "proof 1=C /", "proof 2=C / 3=C", "proof 2=C 3=C /", "proof 2=C / 2=C", "proof / 1=C"] {
        assert!(catch_unwind(|| read(line).map(|proof| proof.branch().is_ok())).is_ok(), "{line}");
    }
}

#[test]
fn signs_and_leading_zeros_are_no_numbers() {
    for index in ["+2", "002", "02", "-2", "0x2", "2 ", "", "2_0", "340282366920938463463374607431768211458"] {
        assert_eq!(read(&format!("proof {index}=C / 3=C")).err(), Some(Error::BadProof), "{index}");
        assert_eq!(read(&format!("proof 3=C / {index}=C")).err(), Some(Error::BadProof), "{index}");
    }
}

#[test]
fn signs_and_blanks_are_no_digits_of_chunks() {
    for spoilt in ["+0", "-0", " 0", "0_", "0g"] {
        let chunk = C.replacen("0x00", &format!("0x{spoilt}"), 1);
        assert_eq!(read(&format!("proof 2={chunk} / 3=C")).err(), Some(Error::BadProof), "{spoilt}");
    }
    assert_eq!(read("proof 2=C0 / 3=C").err(), Some(Error::BadProof));
    assert_eq!(format!("proof 2={} / 3={C}", C.replace("0x", "0X")).parse::<Proof>().err(), Some(Error::BadProof));
}

#[test]
fn leaves_twice_are_no_proof() {
    assert_eq!(read("proof 2=C 2=C / 3=C").err(), Some(Error::BadProof));
    assert_eq!(read("proof 2=C / 3=C 3=C").err(), Some(Error::BadProof));
    assert_eq!(read("proof 2=C 1=C / 3=C").err(), Some(Error::BadProof));
}

#[test]
fn nodes_ascending_missing_or_too_many_are_no_proof() {
    assert_eq!(read("proof 4=C / 3=C 5=C").err(), Some(Error::BadProof));
    assert_eq!(read("proof 4=C / 5=C").err(), Some(Error::BadProof));
    assert_eq!(read("proof 4=C / 5=C 3=C 2=C").err(), Some(Error::BadProof));
    assert_eq!(read("proof / 2=C").err(), Some(Error::BadProof));
}

#[test]
fn lone_blanks_are_no_proof() {
    for line in ["proof 2=C / 3=C ", " proof 2=C / 3=C", "proof  2=C / 3=C", "proof 2=C  / 3=C", "proof 2=C /  3=C", "proof 1=C / "] {
        assert_eq!(read(line).err(), Some(Error::BadProof), "{line}");
    }
    for line in ["proof\t2=C / 3=C", "proof 2=C\u{a0}/ 3=C", "proof 2=C / 3=C\r\n", "proof 2=C / 3=C\n\n", "proof 2=C /3=C"] {
        assert_eq!(read(line).err(), Some(Error::BadProof), "{line}");
    }
}

#[test]
fn leaves_may_have_any_order_and_a_line_its_end() {
    let proof = read("proof 2=C 3=C /").expect("a proof");
    assert_eq!(read("proof 3=C 2=C /"), Ok(proof.clone()));
    assert_eq!(read("proof 3=C 2=C /\n"), Ok(proof.clone()));
    assert_eq!(proof.to_string(), "proof 2=C 3=C /".replace('C', C));
}

#[test]
fn a_path_with_a_blank_is_one_path() {
    let mut session = session();
    for path in ["/a /b", "/a\t", " /a", "/a ", "/a\n", "/a\r", "2 3", "2\t"] {
        assert!(session.prove("V", &[path]).is_err(), "{path:?}");
    }
    assert_eq!(session.prove("V", &["/a", "/b"]).map(|proof| proof.branch().is_ok()), Ok(false));
}

#[test]
fn a_name_with_a_blank_is_no_name() {
    let mut session = session();
    for name in ["V /b", "V\t", " V", "V 3", "", "V\n", "1"] {
        assert!(session.prove(name, &["/a"]).is_err(), "{name:?}");
    }
}

#[test]
fn an_answer_has_the_capacity_that_it_needs() {
    let schema = schema();
    let kind = schema.find("Rows").expect("a type");
    let mut session = Session::start(&schema).expect("a session");
    session.new_default("V", "Rows").expect("a value");
    session.set("V", "/long", &[7; 1 << 20]).expect("a list");
    let data = session.get("V", "/").expect("bytes");
    assert_eq!(data.capacity(), data.len());
    let opened = kind.open(&data).expect("a slice");
    for path in ["/a", "/long", "/long/#len", "/long/3", "/rows", "/"] {
        for answer in [session.get("V", path), kind.part(&data, path), opened.part(path)] {
            let answer = answer.expect("a part");
            assert!(answer.capacity() <= answer.len().max(64), "{path}: {} of {}", answer.len(), answer.capacity());
        }
    }
    let reply = session.run("bytes V /a").expect("a reply");
    assert!(reply.capacity() <= 64, "{}", reply.capacity());
}

#[test]
fn proofs_by_hand_are_judged_as_lines() {
    let (leaf, node) = ([1; 32], [2; 32]);
    let proof = Proof::new(&[(5, leaf), (4, leaf)], &[(3, node)]).expect("a proof");
    assert_eq!((proof.leaves(), proof.nodes()), (&[(4, leaf), (5, leaf)][..], &[(3, node)][..]));
    assert_eq!(proof.to_string().parse(), Ok(proof));
    for (leaves, nodes) in [
        (&[][..], &[][..]),
        (&[(0, leaf)], &[(1, node)]),
        (&[(0, leaf)], &[]),
        (&[(2, leaf), (2, leaf)], &[(3, node)]),
        (&[(4, leaf), (2, leaf)], &[(5, node), (3, node)]),
        (&[(4, leaf)], &[(3, node), (5, node)]),
        (&[(4, leaf)], &[(5, node)]),
        (&[(4, leaf)], &[(5, node), (3, node), (2, node)]),
    ] {
        assert_eq!(Proof::new(leaves, nodes), Err(Error::BadProof), "{leaves:?} {nodes:?}");
    }
}

#[test]
fn branches_are_as_long_as_their_index() {
    let (leaf, nodes) = ([1; 32], [[2; 32]; 300]);
    for index in [0, 1, 2, 3, u128::from(u64::MAX), 1 << 64, u128::MAX >> 1, 1 << 127, u128::MAX] {
        for count in [0, 1, 2, 63, 64, 65, 126, 127, 128, 129, 300] {
            let made = Proof::of_branch(index, leaf, &nodes[..count]);
            let levels = 128 - index.leading_zeros() as usize;
            assert_eq!(made.is_ok(), index > 0 && count + 1 == levels, "{index} {count}");
            if let Ok(proof) = made {
                assert_eq!(proof.branch(), Ok((index, leaf, nodes[..count].to_vec())));
            }
        }
    }
}

#[test]
fn a_proof_of_more_leaves_is_no_branch() {
    let error = read("proof 4=C 5=C / 3=C").expect("a proof").branch().unwrap_err();
    assert_eq!((error, error.to_string().as_str()), (Error::NoBranch, "the proof has more leaves than one, and a branch has one"));
}

#[test]
fn numbers_of_proofs_have_no_signs_and_no_leading_zeros() {
    let mut session = session();
    let proof = session.prove("V", &["/a"]).expect("a proof");
    assert_eq!(session.prove("V", &["2"]), Ok(proof));
    for number in ["02", "+2", "-2", "2.0", "0x2", "340282366920938463463374607431768211458", "\u{662}", "", "a"] {
        assert_eq!(session.prove("V", &[number]), Err(Error::Syntax), "{number:?}");
    }
    for number in ["0", "340282366920938463463374607431768211455"] {
        assert_eq!(session.prove("V", &[number]).unwrap_err().name(), "NoNode", "{number:?}");
    }
    assert_eq!(session.prove("V", &[]), Err(Error::Syntax));
    assert_eq!(session.prove("W", &["/a"]).unwrap_err().name(), "NoVersion");
    assert_eq!(session.prove("V", &["/c"]).unwrap_err().name(), "BadPath");
}

#[test]
fn paths_are_of_the_type_that_a_version_has_now() {
    let mut session = Session::start(&schema()).expect("a session");
    let proved = |session: &mut Session, name: &str, path: &str| session.prove(name, &[path]).map(|proof| proof.leaves()[0].0).ok();
    session.run(" new\tA  Pair ").expect("a version");
    assert_eq!((proved(&mut session, "A", "/b/#len"), proved(&mut session, "A", "/rows")), (Some(7), None));
    session.run("fork A B").expect("a version");
    session.run("drop A").expect("a version");
    assert_eq!((proved(&mut session, "A", "/b/#len"), proved(&mut session, "B", "/b/#len")), (None, Some(7)));
    session.run("upgrade B A Rows").expect("a version");
    assert_eq!((proved(&mut session, "A", "/b"), proved(&mut session, "A", "/rows")), (None, Some(5)));
    session.run("lit C Pair 0x00000000000000000c000000").expect("a version");
    assert!(session.run("new C Rows").is_err() && session.run("# new C Rows").is_ok() && session.run("drop D").is_err());
    assert_eq!(proved(&mut session, "C", "/b"), Some(3));
    session.forget("C").expect("a version");
    session.load("C", "Rows", &[0, 0, 0, 0, 0, 0, 0, 0, 16, 0, 0, 0, 16, 0, 0, 0]).expect("a version");
    session.fork("C", "D").expect("a version");
    session.upgrade("C", "E", "Pair").expect("a version");
    assert_eq!((proved(&mut session, "D", "/rows"), proved(&mut session, "E", "/b")), (Some(5), Some(3)));
}

#[test]
fn a_proof_of_many_indices_has_room() {
    let mut session = Session::start(&schema()).expect("a session");
    session.new_default("V", "Rows").expect("a value");
    session.set("V", "/long", &[7; 1 << 20]).expect("a list");
    let root = session.root("V").expect("a root");
    let all: Vec<u128> = (0..2000).map(|place| (12 << 15) + 16 * place).collect();
    let proof = session.prove_at("V", &all).expect("a proof");
    assert_eq!((proof.leaves().len(), proof.verify(&root)), (2000, Ok(true)));
    assert_eq!(session.prove_at("V", &[4; 100_000]), session.prove("V", &["/a"]));
}

#[test]
fn nothing_at_all_is_taken_as_no_bytes() {
    let (schema, mut session) = (schema(), session());
    let kind = schema.find("Pair").expect("a type");
    assert_eq!(Schema::read(&[]).err(), Some(Error::BadSchema { code: 1, definition: 0 }));
    assert_eq!(kind.check(&[]), Err(Error::Invalid { code: 1, position: 0 }));
    assert_eq!(kind.part(&[], "/"), Err(Error::Invalid { code: 1, position: 0 }));
    assert_eq!(kind.open(&[]).err(), Some(Error::Invalid { code: 1, position: 0 }));
    assert_eq!((kind.gindex(""), schema.find("").err()), (Err(Error::Syntax), Some(Error::NoType)));
    assert_eq!(session.load("W", "Pair", &[]), Err(Error::Invalid { code: 1, position: 0 }));
    assert_eq!((session.set("V", "/b", &[]), session.get("V", "/b")), (Ok(()), Ok(vec![])));
    assert_eq!((session.run(""), session.get("", "")), (Ok(String::new()), Err(Error::Syntax)));
    assert_eq!(("".parse::<Proof>(), Proof::new(&[], &[])), (Err(Error::BadProof), Err(Error::BadProof)));
}
