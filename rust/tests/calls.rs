//! Each call, and each error that it has.

use std::thread;

use ssz::{Error, Form, Proof, Schema, Session};

const TYPES: &[u8] = br#"{"ssz":1,"types":[
    ["Pair",{"container":[["a","uint16"],["b",{"list":["uint8",4]}]]}],
    ["Choice",{"union":[null,"uint64"]}]]}"#;

fn schema() -> Schema {
    Schema::read(TYPES).expect("a schema")
}

fn session() -> Session {
    let mut session = Session::start(&schema()).expect("a session");
    session.load("V", "Pair", &[0xaa, 0xbb, 6, 0, 0, 0, 1, 2]).expect("a value");
    session
}

#[test]
fn a_schema_says_what_is_wrong() {
    assert_eq!(Schema::read(b"{").err(), Some(Error::BadSchema { code: 1, definition: 0 }));
    let slip = br#"{"ssz":1,"types":[["A","uint8"],["B","unit64"]]}"#;
    assert_eq!(Schema::read(slip).err(), Some(Error::BadSchema { code: 5, definition: 1 }));
    assert_eq!(schema().find("pair").err(), Some(Error::NoType));
}

#[test]
fn bytes_are_checked() {
    let schema = schema();
    let pair = schema.find("Pair").unwrap();
    assert_eq!(pair.check(&[0xaa, 0xbb, 6, 0, 0, 0, 1, 2]), Ok(()));
    let error = pair.check(&[0xaa]).unwrap_err();
    assert_eq!((error, error.name()), (Error::Invalid { code: 1, position: 0 }, "Short"));
    assert!(error.to_string().contains("F1 Short, at byte 0"));
}

#[test]
fn parts_have_indices_and_bytes() {
    let schema = schema();
    let pair = schema.find("Pair").unwrap();
    let data = [0xaa, 0xbb, 6, 0, 0, 0, 1, 2];
    assert_eq!(pair.gindex("/b/#len"), Ok(7));
    assert_eq!(pair.part(&data, "/b").unwrap(), [1, 2]);
    assert_eq!(pair.part(&data, "/b/#len").unwrap(), 2u64.to_le_bytes());
    assert_eq!(pair.gindex("/c"), Err(Error::BadPath));
    assert_eq!(pair.gindex("b"), Err(Error::Syntax));
    assert_eq!(pair.part(&data, "/b/2").unwrap_err(), Error::Absent);
}

#[test]
fn types_tell_their_forms() {
    let schema = schema();
    let pair = schema.find("Pair").unwrap();
    assert_eq!(pair.size().unwrap(), None);
    let fields = match pair.form().unwrap() {
        Form::Container(fields) => fields,
        _ => panic!("no container"),
    };
    assert_eq!(fields.iter().map(|field| field.0.as_str()).collect::<Vec<_>>(), ["a", "b"]);
    assert_eq!(fields[0].1.size().unwrap(), Some(2));
    let element = match fields[1].1.form().unwrap() {
        Form::List(element, 4) => element,
        _ => panic!("no list of 4"),
    };
    assert_eq!(element.size().unwrap(), Some(1));
    let options = match schema.find("Choice").unwrap().form().unwrap() {
        Form::Union(options) => options,
        _ => panic!("no union"),
    };
    assert!(options[0].is_none() && matches!(options[1].as_ref().unwrap().form().unwrap(), Form::Uint));
}

#[test]
fn types_have_names() {
    let schema = schema();
    let names = ["Choice", "Pair", "boolean", "byte", "uint128", "uint16", "uint256", "uint32", "uint64", "uint8"];
    assert_eq!(schema.names().unwrap(), names);
    assert!(schema.types().unwrap().is_empty());
    let pair = schema.find("Pair").unwrap();
    assert_eq!(pair.name().unwrap().as_deref(), Some("Pair"));
    assert_eq!(schema.find("uint8").unwrap().name().unwrap().as_deref(), Some("byte"));
    let fields = match pair.form().unwrap() {
        Form::Container(fields) => fields,
        _ => panic!("no container"),
    };
    assert_eq!(fields[1].1.name(), Ok(None));
    let asked: Vec<_> = schema.types().unwrap().iter().map(|kind| kind.name().unwrap()).collect();
    assert_eq!(asked, [Some("Pair".into()), Some("byte".into()), Some("uint16".into()), None]);
}

#[test]
fn bytes_are_checked_once() {
    let mut data = [0xaa, 0xbb, 6, 0, 0, 0, 1, 2];
    let opened = {
        let schema = schema();
        let pair = schema.find("Pair").unwrap();
        assert_eq!(pair.open(&data[..5]).err(), Some(Error::Invalid { code: 1, position: 0 }));
        pair.open(&data).unwrap()
    };
    assert_eq!(data[opened.place("/b").unwrap()], [1, 2]);
    data.fill(0xff);
    assert_eq!(opened.part("/").unwrap(), [0xaa, 0xbb, 6, 0, 0, 0, 1, 2]);
    assert_eq!(opened.part("/b/1").unwrap(), [2]);
    assert_eq!(opened.part("/b/#len").unwrap(), 2u64.to_le_bytes());
    assert_eq!(opened.part("/b/2"), Err(Error::Absent));
    assert_eq!(opened.part("/c"), Err(Error::BadPath));
    assert_eq!(opened.part("b"), Err(Error::Syntax));
    assert_eq!(opened.place("/b/#len"), Err(Error::NoPlace));
    assert_eq!(opened.place("/b/2"), Err(Error::Absent));
    thread::scope(|scope| {
        for _ in 0..4 {
            scope.spawn(|| (0..100).for_each(|_| assert_eq!(opened.part("/a").unwrap(), [0xaa, 0xbb])));
        }
    });
}

#[test]
fn sessions_need_no_schema_to_stay() {
    let mut session = Session::start(&schema()).unwrap();
    session.new_default("V", "Pair").unwrap();
    assert_eq!(session.get("V", "/").unwrap(), [0, 0, 6, 0, 0, 0]);
}

#[test]
fn proofs_are_asked_by_number() {
    let mut session = session();
    let root = session.root("V").unwrap();
    let proof = session.prove_at("V", &[7, 2]).unwrap();
    assert_eq!(proof.leaves().iter().map(|leaf| leaf.0).collect::<Vec<_>>(), [2, 7]);
    assert_eq!(proof.verify(&root), Ok(true));
    assert_eq!(session.prove("V", &["/a", "/b/#len"]).unwrap(), proof);
    assert_eq!(session.prove("V", &["2", "/b/#len"]).unwrap(), proof);
    assert_eq!(session.prove_at("V", &[8]).unwrap_err().name(), "NoNode");
    assert_eq!(session.prove_at("V", &[1, 2]).unwrap_err().name(), "Nested");
    assert_eq!(session.prove_at("V", &[]), Err(Error::Syntax));
    assert_eq!(session.prove_at("W", &[2]).unwrap_err().name(), "NoVersion");
}

#[test]
fn sessions_edit_versions() {
    let mut session = session();
    session.fork("V", "W").unwrap();
    session.set("W", "/a", &[1, 0]).unwrap();
    session.append("W", "/b", &[3]).unwrap();
    assert_eq!(session.get("W", "/").unwrap(), [1, 0, 6, 0, 0, 0, 1, 2, 3]);
    session.pop("W", "/b").unwrap();
    assert_eq!(session.get("W", "/b").unwrap(), [1, 2]);
    assert_eq!(session.get("V", "/a").unwrap(), [0xaa, 0xbb]);
    session.forget("V").unwrap();
    session.compact().unwrap();
    assert_eq!(session.len("W", "/b"), Ok(2));
    assert_eq!(session.root("V").unwrap_err().name(), "NoVersion");
    assert_eq!(session.run("list").unwrap(), "list W\n");
}

#[test]
fn sessions_choose_options() {
    let mut session = session();
    session.new_default("U", "Choice").unwrap();
    session.choose("U", "/", 1, &7u64.to_le_bytes()).unwrap();
    assert_eq!(session.get("U", "/").unwrap(), [1, 7, 0, 0, 0, 0, 0, 0, 0]);
    assert_eq!(session.choose("U", "/", 2, &[]).unwrap_err(), Error::Refused { code: 10 });
}

#[test]
fn refusals_change_nothing() {
    let mut session = session();
    let root = session.root("V").unwrap();
    assert_eq!(session.load("V", "Pair", &[]).unwrap_err(), Error::Refused { code: 4 });
    assert_eq!(session.load("W", "Pair", &[]).unwrap_err(), Error::Invalid { code: 1, position: 0 });
    assert_eq!(session.set("V", "/c", &[]).unwrap_err(), Error::Refused { code: 5 });
    assert_eq!(session.run("load W Pair file").unwrap_err(), Error::NoFile);
    assert_eq!(session.root("V").unwrap(), root);
}

#[test]
fn proofs_lead_to_roots() {
    let mut session = session();
    let root = session.root("V").unwrap();
    let proof = session.prove("V", &["/a", "/b/#len"]).unwrap();
    assert_eq!(proof.verify(&root), Ok(true));
    assert_eq!(proof.verify(&[0; 32]), Ok(false));
    assert_eq!(proof.to_string().parse::<Proof>().unwrap(), proof);
    assert_eq!(proof.branch(), Err(Error::NoBranch));
    assert_eq!("hello".parse::<Proof>().unwrap_err(), Error::BadProof);
    let one = session.prove("V", &["/a"]).unwrap();
    let (index, leaf, nodes) = one.branch().unwrap();
    assert_eq!((index, nodes.len()), (2, 1));
    assert_eq!(Proof::of_branch(index, leaf, &nodes), Ok(one));
    assert_eq!(Proof::of_branch(4, leaf, &nodes), Err(Error::BadProof));
}
