"""What the specifications read from a state, over the encodings of its parts: accessors of phase 0, altair, electra and fulu.

Functions are named as there; `constants` of a state are those of its preset and configuration, by their names.
"""
import collections
import hashlib
import struct

FAR_FUTURE_EPOCH = 2 ** 64 - 1
DOMAIN_BEACON_PROPOSER, DOMAIN_BEACON_ATTESTER, DOMAIN_SYNC_COMMITTEE = (bytes([number, 0, 0, 0]) for number in (0, 1, 7))
Validator = collections.namedtuple(
    "Validator", "pubkey withdrawal_credentials effective_balance slashed activation_eligibility_epoch activation_epoch exit_epoch"
    " withdrawable_epoch")
VALIDATOR = "<48s32sQ?4Q"


def hashed(data):
    return hashlib.sha256(data).digest()


def uint64(number):
    return number.to_bytes(8, "little")


class State:
    """A state of which parts are known: their encodings by their paths."""

    def __init__(self, parts, constants):
        self.parts, self.constants = parts, constants
        self.validators = [Validator(*fields) for fields in struct.iter_unpack(VALIDATOR, parts.get("/validators", b""))]
        self.slot = int.from_bytes(parts["/slot"], "little")
        self.epoch = self.slot // constants["SLOTS_PER_EPOCH"]

    def chunk(self, path, number):
        """An element of a vector of 32 bytes each, at the number modulo its length."""
        place = 32 * number % len(self.parts[path])
        return self.parts[path][place:place + 32]


class Shuffling:
    """compute_shuffled_index for a count and a seed, with the hashes kept."""

    def __init__(self, count, seed, rounds):
        self.count, self.seed, self.rounds, self.sources = count, seed, range(rounds), {}
        self.pivots = [int.from_bytes(hashed(seed + bytes([number]))[:8], "little") % count for number in self.rounds]

    def source(self, number, part):
        """The hash that decides of 256 positions in a round."""
        if (number, part) not in self.sources:
            self.sources[number, part] = hashed(self.seed + bytes([number]) + part.to_bytes(4, "little"))
        return self.sources[number, part]

    def index(self, index):
        for number in self.rounds:
            flip = (self.pivots[number] - index) % self.count
            position = max(index, flip)
            if self.source(number, position // 256)[position % 256 // 8] >> position % 8 & 1:
                index = flip
        return index


def get_active_validator_indices(state, epoch):
    return [number for number, validator in enumerate(state.validators) if validator.activation_epoch <= epoch < validator.exit_epoch]


def get_seed(state, epoch, domain):
    mix = state.chunk("/randao_mixes", epoch - state.constants["MIN_SEED_LOOKAHEAD"] - 1)
    return hashed(domain + uint64(epoch) + mix)


def shuffling(state, epoch, domain):
    """The active validators of an epoch, and how the seed of a domain shuffles them."""
    active = get_active_validator_indices(state, epoch)
    return active, Shuffling(len(active), get_seed(state, epoch, domain), state.constants["SHUFFLE_ROUND_COUNT"])


def committees(state, epoch):
    """get_beacon_committee of an epoch: a function of a slot and the index of a committee of that slot."""
    slots = state.constants["SLOTS_PER_EPOCH"]
    active, shuffled = shuffling(state, epoch, DOMAIN_BEACON_ATTESTER)
    wanted = len(active) // slots // state.constants["TARGET_COMMITTEE_SIZE"]
    each = max(1, min(state.constants["MAX_COMMITTEES_PER_SLOT"], wanted))

    def committee(slot, index):
        place = slot % slots * each + index
        begin, end = (len(active) * number // (each * slots) for number in (place, place + 1))
        return [active[shuffled.index(number)] for number in range(begin, end)]

    return committee


def get_next_sync_committee_indices(state):
    """As altair has it: a random byte against a validator's effective balance."""
    epoch, most = state.epoch + 1, state.constants["MAX_EFFECTIVE_BALANCE"]
    active, shuffled = shuffling(state, epoch, DOMAIN_SYNC_COMMITTEE)
    found, number = [], 0
    while len(found) < state.constants["SYNC_COMMITTEE_SIZE"]:
        candidate = active[shuffled.index(number % len(active))]
        random = hashed(shuffled.seed + uint64(number // 32))[number % 32]
        if state.validators[candidate].effective_balance * 255 >= most * random:
            found.append(candidate)
        number += 1
    return found


def compute_proposer_index(state, active, seed):
    """As electra has it: two random bytes against a validator's effective balance."""
    shuffled = Shuffling(len(active), seed, state.constants["SHUFFLE_ROUND_COUNT"])
    most, number = state.constants["MAX_EFFECTIVE_BALANCE_ELECTRA"], 0
    while True:
        candidate = active[shuffled.index(number % len(active))]
        place = number % 16 * 2
        random = int.from_bytes(hashed(seed + uint64(number // 16))[place:place + 2], "little")
        if state.validators[candidate].effective_balance * 65535 >= most * random:
            return candidate
        number += 1


def get_beacon_proposer_indices(state, epoch):
    """The proposers of the slots of an epoch (fulu)."""
    slots, active = state.constants["SLOTS_PER_EPOCH"], get_active_validator_indices(state, epoch)
    seed = get_seed(state, epoch, DOMAIN_BEACON_PROPOSER)
    return [compute_proposer_index(state, active, hashed(seed + uint64(slot))) for slot in range(epoch * slots, (epoch + 1) * slots)]


def get_balance_churn_limit(state):
    """As electra has it, of the effective balances of the active validators."""
    constants, step = state.constants, state.constants["EFFECTIVE_BALANCE_INCREMENT"]
    total = sum(state.validators[number].effective_balance for number in get_active_validator_indices(state, state.epoch))
    churn = max(constants["MIN_PER_EPOCH_CHURN_LIMIT_ELECTRA"], max(step, total) // constants["CHURN_LIMIT_QUOTIENT"])
    return churn - churn % step
