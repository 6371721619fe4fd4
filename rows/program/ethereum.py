"""Known roots, sizes and generalized indices of the consensus layer's types, in both presets.

Roots: of ForkData and of the genesis block's header and body, those of Ethereum's mainnet (a fork's digest is the first four bytes of
its ForkData's root; fulu's is masked besides, and those that mainnet has had since are known); of the empty list of deposits, that of
the deposit contract before its first deposit. Indices: those that the specifications of the light client, of deneb and of electra name.
Sizes: those of the default states and (presets.txt) of types of fixed size, as the clients' generated code has them; limits (there, too):
those of the presets' files. In the minimal preset hashlib and the sums of the fields are all there is to compare with.
"""
import hashlib
import os

import ssz
from program import tasks
from program.runs import ETHEREUM, Run, Shared, example
from program.scripts import run_of

FOLDER = os.path.dirname(os.path.abspath(__file__))
FORKS = ["phase0", "altair", "bellatrix", "capella", "deneb", "electra", "fulu"]
# The copies in data/ by their names, of the files in examples/ethereum
SCHEMAS = {**{f"{name}.json": f"{name}.json" for name in [*FORKS, "upgrade"]},
           **{f"minimal-{name}.json": os.path.join("minimal", f"{name}.json") for name in [*FORKS, "upgrade"]}}
GENESIS_VALIDATORS = "4b363db94e286120d76eb905340fdd4e54bfe9f06bf33ff6cf5ad27f511bfe95"
GENESIS_STATE = "7e76880eb67bbdc86250aa578958e9d0675e64e714337855204fb5abaaf82c2b"
GENESIS_BODY = "ccb62460692be0ec813b56be97f68a82cf57abc102e27bf49ebf4190ff22eedd"
GENESIS_BLOCK = "4d611d5b93fdab69013a7f0a2f961caca0c853f87cfe9595fe50038163079360"
# From fulu on, of mainnet: from which epoch on a block has so many blobs at most, and the digest with these numbers in it
BLOB_PARAMETERS = [(364032, 9, "cc2c5cdb"), (412672, 15, "cb0d1acc"), (419072, 21, "8c9f62fe")]
# Of each fork the first bytes of ForkData's root on mainnet
DIGESTS = ["b5303f2a", "afcaaba0", "4a26c58b", "bba4da96", "6a95a1a9", "ad532ceb", "82fae541"]
STATE_SIZES = [2687377, 2736629, 2737169, 2737221, 2737237, 2737297, 2737809]
# A type, a value's bytes, and its root, the same in all forks
ROOTS = [
    ("DepositDataList", "", "d70a234731285c6804c2a4f56711ddb8c82c99740f207854891028af34e27e5e"),
    ("BeaconBlockHeader", "00" * 112, "c78009fdf07fc56a11f122370658a353aaa542ed63e44c4bc15ff4cd105ab33c"),
    ("BeaconBlockHeader", "00" * 48 + GENESIS_STATE + GENESIS_BODY, GENESIS_BLOCK),
]
FINALITY, CURRENT, NEXT = "/finalized_checkpoint/root", "/current_sync_committee", "/next_sync_committee"
# A schema, a type, a path, and its index
INDICES = [
    *[(schema, "BeaconState", path, index) for schema in ("altair", "deneb", "minimal-deneb")
      for path, index in ((FINALITY, 105), (CURRENT, 54), (NEXT, 55))],
    *[(schema, "BeaconState", path, index) for schema in ("electra", "fulu", "minimal-fulu")
      for path, index in ((FINALITY, 169), (CURRENT, 86), (NEXT, 87))],
    *[(schema, "BeaconBlockBody", "/execution_payload", 25) for schema in ("capella", "deneb", "electra", "fulu")],
    ("deneb", "BeaconBlockBody", "/blob_kzg_commitments", 27),
    ("deneb", "BeaconBlockBody", "/blob_kzg_commitments/0", 221184),
]


def fork_data(number):
    """The bytes of mainnet's ForkData."""
    return bytes([number, 0, 0, 0]) + bytes.fromhex(GENESIS_VALIDATORS)


def compute_fork_digest(number, epoch, most_blobs):
    """The digest from fulu on (EIP-7892): ForkData's root, in which each bit of a hash of the blob parameters is turned."""
    base = hashlib.sha256(bytes([number]).ljust(32, b"\0") + bytes.fromhex(GENESIS_VALIDATORS)).digest()
    mask = hashlib.sha256(ssz.le(epoch, 8) + ssz.le(most_blobs, 8)).digest()
    return bytes(one ^ other for one, other in zip(base, mask))[:4]


def types(schema):
    with open(os.path.join(ETHEREUM, SCHEMAS[f"{schema}.json"]), encoding="ascii") as file:
        return ssz.types_of(file.read())


def values():
    """A schema, a type, the bytes of a value, and its root."""
    for number, (fork, digest, size) in enumerate(zip(FORKS, DIGESTS, STATE_SIZES)):
        named = types(fork)
        root = ssz.hash_tree_root(named["ForkData"], ssz.decode(named["ForkData"], fork_data(number)))
        assert root.hex().startswith(digest), fork
        assert len(ssz.encode(named["BeaconState"], ssz.default(named["BeaconState"]))) == size, fork
        yield fork, "ForkData", fork_data(number), root.hex()
        for name, digits, wanted in ROOTS:
            yield fork, name, bytes.fromhex(digits), wanted
    record = types("fulu")["ENRForkID"]
    for epoch, most_blobs, digest in BLOB_PARAMETERS:
        assert compute_fork_digest(6, epoch, most_blobs).hex() == digest
        value = bytes.fromhex(digest) + bytes([6, 0, 0, 0]) + bytes([255] * 8)
        yield "fulu", "ENRForkID", value, ssz.hash_tree_root(record, ssz.decode(record, value)).hex()
    body = types("phase0")["BeaconBlockBody"]
    yield "phase0", "BeaconBlockBody", ssz.encode(body, ssz.default(body)), GENESIS_BODY
    for schema in (f"{preset}{fork}" for preset in ("", "minimal-") for fork in FORKS):
        body = types(schema)["SignedBeaconBlock"]
        root = ssz.hash_tree_root(body, ssz.default(body))
        yield schema, "SignedBeaconBlock", ssz.encode(body, ssz.default(body)), root.hex()


def preset_lines(kind, fork, place):
    """The lines of presets.txt of a kind and fork: a type, maybe with a path, and its number in the preset that stands at this place."""
    with open(os.path.join(FOLDER, "presets.txt"), encoding="ascii") as file:
        lines = [line.split() for line in file if line.startswith(f"{kind} {fork} ")]
    for _, _, name, *numbers in lines:
        base, _, power = numbers[min(place, len(numbers) - 1)].partition("**")
        yield name, int(base) ** int(power or 1)


def default_state(schema):
    """A script that prints the root of a default state, which is computed of the whole value."""
    state = types(schema)["BeaconState"]
    files = {"schema": Shared(f"{schema}.json"), "script": "new S BeaconState\nroot S\n"}
    return Run("sha", ["run", "schema", "script"], files, 0, "ok\nroot 0x%s\n" % ssz.hash_tree_root(state, ssz.default(state)).hex())


def size(schema, name, length):
    """A byte too many is told with the size of the type."""
    files = {"schema": Shared(f"{schema}.json"), "value": bytes(length + 1)}
    return Run("sha", ["root", "schema", name, "value"], files, 1, "invalid F2 %d\n" % length)


def limits(schema, numbers):
    """A script that asks for the last element of each list that there may be, and for one more."""
    asked = [f"gindex {name.replace('/', ' /', 1) if '/' in name else name + ' '}/{place}\n"
             for name, most in numbers for place in (most - 1, most)]
    run = run_of("sha", "".join(asked), (), f"{schema}.json", example(SCHEMAS[f"{schema}.json"]))
    assert [line.split()[0] for line in run.taken.splitlines()] == ["gindex", "refused"] * len(numbers), (schema, run.taken)
    return run


def preset_runs():
    """What the two presets have otherwise: default states, sizes, limits."""
    for schema, fork, place in ((prefix + fork, fork, place) for place, prefix in enumerate(("", "minimal-")) for fork in FORKS):
        yield default_state(schema)
        yield limits(schema, list(preset_lines("limit", fork, place)))
        yield from (size(schema, name, length) for name, length in preset_lines("size", fork, place))


def runs():
    for schema, name, value, root in values():
        files = {"schema": Shared(f"{schema}.json"), "value": value}
        yield Run("sha", ["root", "schema", name, "value"], files, 0, "root 0x%s\n" % root)
    for schema, name, path, index in INDICES:
        files = {"schema": Shared(f"{schema}.json"), "script": "gindex %s %s\n" % (name, path)}
        yield Run("sha", ["run", "schema", "script"], files, 0, "gindex %d\n" % index)
    yield from preset_runs()
    yield from tasks.runs()
