//! What threads may do with what the crate gives, and what they get.

use std::sync::Mutex;
use std::thread;

use ssz::{Error, Form, Proof, Schema, Session, Slice, Type};

const TYPES: &[u8] = br#"{"ssz":1,"types":[["Pair",{"container":[["a","uint16"],["b",{"list":["uint8",4096]}]]}]]}"#;

fn schema() -> Schema {
    Schema::read(TYPES).expect("a schema")
}

fn sent<T: Send>() {}

fn shared<T: Send + Sync>() {}

/// A type that is `Sync` has two of these, so that none can be named.
trait Unshared<Mark> {
    fn here() {}
}

impl<T> Unshared<()> for T {}

impl<T: Sync> Unshared<u8> for T {}

#[test]
fn what_is_sent_and_what_is_shared() {
    shared::<Schema>();
    shared::<Type<'_>>();
    shared::<Form<'_>>();
    shared::<Slice>();
    shared::<Proof>();
    shared::<Error>();
    sent::<Session>();
    <Session as Unshared<_>>::here();
}

#[test]
fn threads_share_a_schema() {
    let schema = schema();
    let wanted = schema.find("Pair").unwrap().root(&[0, 0, 6, 0, 0, 0]);
    thread::scope(|scope| {
        for _ in 0..4 {
            scope.spawn(|| (0..100).for_each(|_| assert_eq!(schema.find("Pair").unwrap().root(&[0, 0, 6, 0, 0, 0]), wanted)));
        }
    });
    let mine: Vec<_> = (0..4).map(|_| schema.share().unwrap()).collect();
    drop(schema);
    let asked = mine.into_iter().map(|schema| thread::spawn(move || schema.find("Pair").unwrap().root(&[0, 0, 6, 0, 0, 0])));
    for root in asked.collect::<Vec<_>>() {
        assert_eq!(root.join().expect("it ends"), wanted);
    }
}

#[test]
fn threads_share_types_and_slices() {
    let schema = schema();
    let kind = schema.find("Pair").unwrap();
    let data: Vec<u8> = [1, 2, 6, 0, 0, 0].into_iter().chain((0..4096).map(|place| place as u8)).collect();
    let opened = kind.open(&data).unwrap();
    thread::scope(|scope| {
        for _ in 0..4 {
            scope.spawn(|| {
                for place in 0..200 {
                    assert_eq!(kind.part(&data, "/b").unwrap(), data[6..]);
                    assert_eq!(opened.part("/b").unwrap(), data[6..]);
                    assert_eq!(opened.part(&format!("/b/{place}")).unwrap(), [place as u8]);
                    assert_eq!(kind.part(&data, "/b/#len").unwrap(), 4096u64.to_le_bytes());
                    assert_eq!(schema.names().unwrap().len(), 9);
                }
            });
        }
    });
}

/// Each answer is of one state of the session: what its size was and what it is do not come apart.
#[test]
fn threads_take_turns_with_a_session() {
    let mut session = Session::start(&schema()).unwrap();
    session.new_default("V", "Pair").unwrap();
    let session = Mutex::new(session);
    thread::scope(|scope| {
        for _ in 0..2 {
            scope.spawn(|| (0..2000).for_each(|_| session.lock().unwrap().append("V", "/b", &[7]).unwrap()));
            scope.spawn(|| {
                for _ in 0..200 {
                    let bytes = session.lock().unwrap().get("V", "/b").unwrap();
                    assert!(bytes.iter().all(|byte| *byte == 7));
                    let (root, proof) = {
                        let mut session = session.lock().unwrap();
                        (session.root("V").unwrap(), session.prove("V", &["/b"]).unwrap())
                    };
                    assert_eq!(proof.verify(&root), Ok(true));
                }
            });
        }
    });
    let mut session = session.into_inner().unwrap();
    assert_eq!(session.len("V", "/b"), Ok(4000));
    thread::spawn(move || drop(session)).join().expect("the session ends there");
}
