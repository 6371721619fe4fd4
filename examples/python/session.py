"""A root, an index and a part of bytes, and a session that edits a value and proves it.

    session.py LIBRARY SCHEMA
"""

import sys
from pathlib import Path

from ssz import Library, Refused, SszError

library = Library(sys.argv[1])
deneb = Path(sys.argv[2]).read_bytes()

with library.schema(deneb) as schema:
    checkpoint = schema.type("Checkpoint")
    print(checkpoint.root(bytes(40)).hex(), checkpoint.gindex("/root"), checkpoint.part(bytes(40), "/epoch").hex())
    try:
        checkpoint.check(bytes(39))
    except SszError as error:
        print(error.status.name, error.code, error.position)

with library.session(deneb) as session:
    session.run("new C Checkpoint")
    session.run("set C /epoch 0x0700000000000000")
    root = bytes.fromhex(session.run("root C").removeprefix("root 0x"))
    print(library.verify(root, session.run("prove C /epoch").encode() + b"\n"))
    try:
        session.run("set C /slot 0x00")
    except Refused as refusal:
        print(refusal.name, refusal.code, refusal.position)
