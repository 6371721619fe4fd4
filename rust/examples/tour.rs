//! A value is checked, edited, hashed and proved.

use ssz::{Error, Schema, Session};

fn main() -> ssz::Result<()> {
    let schema = Schema::read(include_bytes!("../../examples/ethereum/deneb.json"))?;
    let checkpoint = schema.find("Checkpoint")?;
    println!("gindex {}", checkpoint.gindex("/root")?);
    if let Err(error @ Error::Invalid { .. }) = checkpoint.check(&[0; 39]) {
        println!("{error}");
    }

    let mut session = Session::start(&schema)?;
    session.load("C", "Checkpoint", &[0; 40])?;
    session.fork("C", "D")?;
    session.set("D", "/epoch", &7u64.to_le_bytes())?;
    println!("epochs {:?} {:?}", session.get("C", "/epoch")?, session.get("D", "/epoch")?);

    let root = session.root("D")?;
    let proof = session.prove("D", &["/epoch"])?;
    println!("{} {}", proof.verify(&root)?, proof.verify(&session.root("C")?)?);
    Ok(())
}
