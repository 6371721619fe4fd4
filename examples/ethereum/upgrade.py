"""The script that makes a state of one fork of a state of the fork before, as the specifications' upgrade functions do.

The statement `upgrade` takes each field whose type stays, and gives the others their defaults. What upgrade_to_FORK (specs/FORK/fork.md)
sets besides is a line each, made here of the parts of the old state and of the constants. make.py prints the script.
"""
import collections
import json
import math
import os
import shutil
import struct
import subprocess
import sys
import tempfile

import bls
from accessors import (
    FAR_FUTURE_EPOCH, State, committees, get_balance_churn_limit, get_beacon_proposer_indices, get_next_sync_committee_indices, uint64)

HEADER = "/latest_execution_payload_header"
# The parts of the old state that each fork's function needs, besides those of all
NEEDED = {
    "altair": ["/validators", "/randao_mixes", "/block_roots", "/previous_epoch_attestations", "/previous_justified_checkpoint",
               "/current_justified_checkpoint"],
    "electra": ["/validators", "/balances"],
    "fulu": ["/validators", "/randao_mixes"],
}
PendingAttestation = collections.namedtuple("PendingAttestation", "slot index head source target delay bits")
TIMELY_SOURCE, TIMELY_TARGET, TIMELY_HEAD = 1, 2, 4
COMPOUNDING_WITHDRAWAL_PREFIX, G2_POINT_AT_INFINITY, GENESIS_SLOT = 2, b"\xc0" + bytes(95), uint64(0)


def pending_attestations(data):
    """The elements of a list of PendingAttestation."""
    count = int.from_bytes(data[:4], "little") // 4
    ends = [*struct.unpack_from(f"<{count}I", data), len(data)]
    for begin, end in zip(ends, ends[1:]):
        slot, index, head, source, target, delay = struct.unpack_from("<4xQQ32s40s40sQ8x", data, begin)
        bits = int.from_bytes(data[begin + 148:end], "little")
        yield PendingAttestation(slot, index, head, source, target, delay, bits)


def flags_of(state, attestation):
    """get_attestation_participation_flag_indices, as the bits of a byte."""
    target, slots = int.from_bytes(attestation.target[:8], "little"), state.constants["SLOTS_PER_EPOCH"]
    justified = state.parts["/current_justified_checkpoint" if target == state.epoch else "/previous_justified_checkpoint"]
    if attestation.source != justified:
        raise ValueError("an attestation of another source than the justified checkpoint")
    is_target = attestation.target[8:] == state.chunk("/block_roots", target * slots)
    is_head = is_target and attestation.head == state.chunk("/block_roots", attestation.slot)
    flags = TIMELY_SOURCE if attestation.delay <= math.isqrt(slots) else 0
    flags |= TIMELY_TARGET if is_target and attestation.delay <= slots else 0
    return flags | (TIMELY_HEAD if is_head and attestation.delay == state.constants["MIN_ATTESTATION_INCLUSION_DELAY"] else 0)


def translated_participation(state):
    """translate_participation: a byte of flags for each validator."""
    flags, committee = bytearray(len(state.validators)), committees(state, max(state.epoch - 1, 0))
    for attestation in pending_attestations(state.parts["/previous_epoch_attestations"]):
        for place, member in enumerate(committee(attestation.slot, attestation.index)):
            if attestation.bits >> place & 1:
                flags[member] |= flags_of(state, attestation)
    return bytes(flags)


def altair(state):
    count = len(state.validators)
    keys = [state.validators[number].pubkey for number in get_next_sync_committee_indices(state)]
    committee = b"".join(keys) + bls.aggregate(keys)
    yield "set", "/previous_epoch_participation", translated_participation(state)
    yield "set", "/current_epoch_participation", bytes(count)
    yield "set", "/inactivity_scores", bytes(8 * count)
    yield "set", "/current_sync_committee", committee
    yield "set", "/next_sync_committee", committee


def bellatrix(state):
    return ()


def with_header(state):
    """capella and deneb: all fields of the header of the last payload, whose type has new ones behind them."""
    for path, data in state.parts.items():
        if path.startswith(HEADER):
            yield "set", path, data


def pending_deposit(validator, amount):
    key, credentials = validator.pubkey, validator.withdrawal_credentials
    return "append", "/pending_deposits", key + credentials + uint64(amount) + G2_POINT_AT_INFINITY + GENESIS_SLOT


def inactive(state, balances):
    """The validators that were not yet activated go through the queue of deposits."""
    waiting = [number for number, validator in enumerate(state.validators) if validator.activation_epoch == FAR_FUTURE_EPOCH]
    for number in sorted(waiting, key=lambda number: (state.validators[number].activation_eligibility_epoch, number)):
        yield "set", f"/balances/{number}", uint64(0)
        yield "set", f"/validators/{number}/effective_balance", uint64(0)
        yield "set", f"/validators/{number}/activation_eligibility_epoch", uint64(FAR_FUTURE_EPOCH)
        yield pending_deposit(state.validators[number], balances[number])
        balances[number] = 0


def compounding(state, balances):
    """So does what validators with compounding credentials have above the least balance (queue_excess_active_balance)."""
    least = state.constants["MIN_ACTIVATION_BALANCE"]
    for number, validator in enumerate(state.validators):
        if validator.withdrawal_credentials[0] == COMPOUNDING_WITHDRAWAL_PREFIX and balances[number] > least:
            yield "set", f"/balances/{number}", uint64(least)
            yield pending_deposit(validator, balances[number] - least)


def electra(state):
    balances = [balance for balance, in struct.iter_unpack("<Q", state.parts["/balances"])]
    soonest = state.epoch + 1 + state.constants["MAX_SEED_LOOKAHEAD"]
    exits = [validator.exit_epoch for validator in state.validators if validator.exit_epoch != FAR_FUTURE_EPOCH]
    churn = get_balance_churn_limit(state)
    exit_churn = min(state.constants["MAX_PER_EPOCH_ACTIVATION_EXIT_CHURN_LIMIT"], churn)
    yield "set", "/deposit_requests_start_index", uint64(2 ** 64 - 1)
    yield "set", "/exit_balance_to_consume", uint64(exit_churn)
    yield "set", "/earliest_exit_epoch", uint64(max(exits + [soonest]) + 1)
    yield "set", "/consolidation_balance_to_consume", uint64(churn - exit_churn)
    yield "set", "/earliest_consolidation_epoch", uint64(soonest)
    yield from inactive(state, balances)
    yield from compounding(state, balances)


def fulu(state):
    epochs = range(state.epoch, state.epoch + state.constants["MIN_SEED_LOOKAHEAD"] + 1)
    proposers = [proposer for epoch in epochs for proposer in get_beacon_proposer_indices(state, epoch)]
    yield "set", "/proposer_lookahead", b"".join(map(uint64, proposers))


FUNCTIONS = {"altair": altair, "bellatrix": bellatrix, "capella": with_header, "deneb": with_header, "electra": electra, "fulu": fulu}


def state_type(fork):
    return fork.capitalize() + "BeaconState"


def needed(types, before, fork):
    """The paths of the parts of the old state that the function of a fork needs."""
    fields = dict(types[state_type(before)]["container"])
    header = types[fields[HEADER[1:]]]["container"] if fork in ("capella", "deneb") else []
    return ["/slot", "/fork/current_version"] + NEEDED.get(fork, []) + [f"{HEADER}/{name}" for name, _ in header]


def lines(types, before, fork, constants, parts):
    """The script's lines that make NEW of OLD."""
    state = State(parts, constants)
    version = constants[fork.upper() + "_FORK_VERSION"].to_bytes(4, "big")
    edits = [("set", "/fork", parts["/fork/current_version"] + version + uint64(state.epoch)), *FUNCTIONS[fork](state)]
    old, new = (types[state_type(name)]["container"] for name in (before, fork))
    left = [name for name, kind in new if [name, kind] not in old and not any(path.split("/")[1] == name for _, path, _ in edits)]
    yield f"upgrade OLD NEW {state_type(fork)}"
    if left:
        yield f"# defaults: {', '.join(left)}"
    for statement, path, data in edits:
        yield f"{statement} NEW {path} 0x{data.hex()}"


def read(schema, name, file, paths):
    """The encodings of parts of a state in a file, by the program `ssz`."""
    program = shutil.which("ssz") or sys.exit("no program ssz in the PATH")
    asked = [f"load OLD {name} {file}"] + [f"bytes OLD {path}" for path in paths]
    with tempfile.TemporaryDirectory() as folder:
        files = [os.path.join(folder, part) for part in ("schema", "script")]
        for path, text in zip(files, (schema, "\n".join(asked))):
            with open(path, "w", encoding="ascii") as out:
                out.write(text)
        said = subprocess.run([program, "run", *files, "--max-bytes=4294967295"], capture_output=True, text=True)
    if said.returncode:
        sys.exit(f"{file} was not read: status {said.returncode}\n{said.stdout}")
    return {path: bytes.fromhex(line.removeprefix("bytes 0x")) for path, line in zip(paths, said.stdout.splitlines()[1:])}


def script(before, fork, constants, schema, old, new):
    """The whole script, from the file of the old state to that of the new one."""
    types = dict(json.loads(schema)["types"])
    parts = read(schema, state_type(before), old, needed(types, before, fork))
    made = [f"# upgrade_to_{fork} (specs/{fork}/fork.md)", f"load OLD {state_type(before)} {old}",
            *lines(types, before, fork, constants, parts), "root NEW", f"save NEW {new}"]
    return "\n".join(made) + "\n"
