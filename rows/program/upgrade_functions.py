"""The upgrade functions of the specifications, and what they call, over values with fields (specs/FORK/fork.md, v1.6.0).

Names and statements are those of the specifications. A state is a copy of the old one, whose fields the function sets; public keys are
added by their secret keys. Nothing of examples/ethereum takes part but the constants.
"""
import copy
import hashlib
import math
import types

from program.g1 import pubkey

FAR_FUTURE_EPOCH, UNSET_DEPOSIT_REQUESTS_START_INDEX = 2 ** 64 - 1, 2 ** 64 - 1
SECRETS = {pubkey(secret): secret for secret in range(1, 65)}


def hash(data):
    return hashlib.sha256(data).digest()


def uint_to_bytes(number, length=8):
    return number.to_bytes(length, "little")


def get_current_epoch(state, c):
    return state.slot // c.SLOTS_PER_EPOCH


def get_active_validator_indices(state, epoch):
    return [i for i, v in enumerate(state.validators) if v.activation_epoch <= epoch and epoch < v.exit_epoch]


def get_randao_mix(state, epoch, c):
    return state.randao_mixes[epoch % c.EPOCHS_PER_HISTORICAL_VECTOR]


def get_seed(state, epoch, domain_type, c):
    mix = get_randao_mix(state, epoch + c.EPOCHS_PER_HISTORICAL_VECTOR - c.MIN_SEED_LOOKAHEAD - 1, c)
    return hash(bytes.fromhex(domain_type) + uint_to_bytes(epoch) + mix)


def compute_shuffled_index(index, index_count, seed, c):
    assert index < index_count
    for current_round in range(c.SHUFFLE_ROUND_COUNT):
        pivot = int.from_bytes(hash(seed + uint_to_bytes(current_round, 1))[0:8], "little") % index_count
        flip = (pivot + index_count - index) % index_count
        position = max(index, flip)
        source = hash(seed + uint_to_bytes(current_round, 1) + uint_to_bytes(position // 256, 4))
        byte = source[(position % 256) // 8]
        bit = (byte >> (position % 8)) % 2
        index = flip if bit else index
    return index


def compute_committee(indices, seed, index, count, c):
    start = (len(indices) * index) // count
    end = (len(indices) * (index + 1)) // count
    return [indices[compute_shuffled_index(i, len(indices), seed, c)] for i in range(start, end)]


def get_committee_count_per_slot(state, epoch, c):
    active = len(get_active_validator_indices(state, epoch))
    return max(1, min(c.MAX_COMMITTEES_PER_SLOT, active // c.SLOTS_PER_EPOCH // c.TARGET_COMMITTEE_SIZE))


def get_beacon_committee(state, slot, index, c):
    epoch = slot // c.SLOTS_PER_EPOCH
    committees_per_slot = get_committee_count_per_slot(state, epoch, c)
    return compute_committee(
        get_active_validator_indices(state, epoch), get_seed(state, epoch, "01000000", c),
        (slot % c.SLOTS_PER_EPOCH) * committees_per_slot + index, committees_per_slot * c.SLOTS_PER_EPOCH, c)


def get_attesting_indices(state, data, bits, c):
    committee = get_beacon_committee(state, data.slot, data.index, c)
    assert len(bits) == len(committee)
    return {index for i, index in enumerate(committee) if bits[i]}


def get_block_root_at_slot(state, slot, c):
    assert slot < state.slot <= slot + c.SLOTS_PER_HISTORICAL_ROOT
    return state.block_roots[slot % c.SLOTS_PER_HISTORICAL_ROOT]


def get_attestation_participation_flag_indices(state, data, inclusion_delay, c):
    if data.target.epoch == get_current_epoch(state, c):
        justified_checkpoint = state.current_justified_checkpoint
    else:
        justified_checkpoint = state.previous_justified_checkpoint
    is_matching_source = data.source == justified_checkpoint
    is_matching_target = is_matching_source and data.target.root == get_block_root_at_slot(state, data.target.epoch * c.SLOTS_PER_EPOCH, c)
    is_matching_head = is_matching_target and data.beacon_block_root == get_block_root_at_slot(state, data.slot, c)
    assert is_matching_source
    participation_flag_indices = []
    if is_matching_source and inclusion_delay <= math.isqrt(c.SLOTS_PER_EPOCH):
        participation_flag_indices.append(0)
    if is_matching_target and inclusion_delay <= c.SLOTS_PER_EPOCH:
        participation_flag_indices.append(1)
    if is_matching_head and inclusion_delay == c.MIN_ATTESTATION_INCLUSION_DELAY:
        participation_flag_indices.append(2)
    return participation_flag_indices


def translate_participation(state, pending_attestations, c):
    for attestation in pending_attestations:
        data = attestation.data
        flags = get_attestation_participation_flag_indices(state, data, attestation.inclusion_delay, c)
        for index in get_attesting_indices(state, data, attestation.aggregation_bits, c):
            for flag_index in flags:
                state.previous_epoch_participation[index] |= 2 ** flag_index


def get_next_sync_committee_indices(state, c):
    epoch = get_current_epoch(state, c) + 1
    active = get_active_validator_indices(state, epoch)
    seed = get_seed(state, epoch, "07000000", c)
    i, found = 0, []
    while len(found) < c.SYNC_COMMITTEE_SIZE:
        shuffled_index = compute_shuffled_index(i % len(active), len(active), seed, c)
        candidate_index = active[shuffled_index]
        random_byte = hash(seed + uint_to_bytes(i // 32))[i % 32]
        if state.validators[candidate_index].effective_balance * (2 ** 8 - 1) >= c.MAX_EFFECTIVE_BALANCE * random_byte:
            found.append(candidate_index)
        i += 1
    return found


def get_next_sync_committee(state, c):
    pubkeys = [state.validators[index].pubkey for index in get_next_sync_committee_indices(state, c)]
    return types.SimpleNamespace(pubkeys=pubkeys, aggregate_pubkey=pubkey(sum(SECRETS[key] for key in pubkeys)))


def upgraded(pre, version, c):
    """A copy of the state with the fork's versions and epoch."""
    post = copy.deepcopy(pre)
    post.fork.previous_version = pre.fork.current_version
    post.fork.current_version = version.to_bytes(4, "big")
    post.fork.epoch = get_current_epoch(pre, c)
    return post


def upgrade_to_altair(pre, c):
    post = upgraded(pre, c.ALTAIR_FORK_VERSION, c)
    post.previous_epoch_participation = [0 for _ in range(len(pre.validators))]
    post.current_epoch_participation = [0 for _ in range(len(pre.validators))]
    post.inactivity_scores = [0 for _ in range(len(pre.validators))]
    translate_participation(post, pre.previous_epoch_attestations, c)
    post.current_sync_committee = get_next_sync_committee(post, c)
    post.next_sync_committee = get_next_sync_committee(post, c)
    return post


def upgrade_to_bellatrix(pre, c):
    return upgraded(pre, c.BELLATRIX_FORK_VERSION, c)


def upgrade_to_capella(pre, c):
    post = upgraded(pre, c.CAPELLA_FORK_VERSION, c)
    post.latest_execution_payload_header.withdrawals_root = bytes(32)
    post.next_withdrawal_index = 0
    post.next_withdrawal_validator_index = 0
    post.historical_summaries = []
    return post


def upgrade_to_deneb(pre, c):
    post = upgraded(pre, c.DENEB_FORK_VERSION, c)
    post.latest_execution_payload_header.blob_gas_used = 0
    post.latest_execution_payload_header.excess_blob_gas = 0
    return post


def get_balance_churn_limit(state, c):
    active = get_active_validator_indices(state, get_current_epoch(state, c))
    total = max(c.EFFECTIVE_BALANCE_INCREMENT, sum(state.validators[i].effective_balance for i in active))
    churn = max(c.MIN_PER_EPOCH_CHURN_LIMIT_ELECTRA, total // c.CHURN_LIMIT_QUOTIENT)
    return churn - churn % c.EFFECTIVE_BALANCE_INCREMENT


def get_activation_exit_churn_limit(state, c):
    return min(c.MAX_PER_EPOCH_ACTIVATION_EXIT_CHURN_LIMIT, get_balance_churn_limit(state, c))


def compute_activation_exit_epoch(epoch, c):
    return epoch + 1 + c.MAX_SEED_LOOKAHEAD


def append_pending_deposit(post, validator, amount):
    post.pending_deposits.append(types.SimpleNamespace(
        pubkey=validator.pubkey, withdrawal_credentials=validator.withdrawal_credentials, amount=amount,
        signature=b"\xc0" + b"\x00" * 95, slot=0))


def queue_excess_active_balance(state, index, c):
    balance = state.balances[index]
    if balance > c.MIN_ACTIVATION_BALANCE:
        state.balances[index] = c.MIN_ACTIVATION_BALANCE
        append_pending_deposit(state, state.validators[index], balance - c.MIN_ACTIVATION_BALANCE)


def upgrade_to_electra(pre, c):
    earliest_exit_epoch = compute_activation_exit_epoch(get_current_epoch(pre, c), c)
    for validator in pre.validators:
        if validator.exit_epoch != FAR_FUTURE_EPOCH:
            if validator.exit_epoch > earliest_exit_epoch:
                earliest_exit_epoch = validator.exit_epoch
    post = upgraded(pre, c.ELECTRA_FORK_VERSION, c)
    post.deposit_requests_start_index = UNSET_DEPOSIT_REQUESTS_START_INDEX
    post.deposit_balance_to_consume = 0
    post.earliest_exit_epoch = earliest_exit_epoch + 1
    post.earliest_consolidation_epoch = compute_activation_exit_epoch(get_current_epoch(pre, c), c)
    post.pending_deposits, post.pending_partial_withdrawals, post.pending_consolidations = [], [], []
    post.exit_balance_to_consume = get_activation_exit_churn_limit(post, c)
    post.consolidation_balance_to_consume = get_balance_churn_limit(post, c) - get_activation_exit_churn_limit(post, c)
    pre_activation = sorted(
        [index for index, validator in enumerate(post.validators) if validator.activation_epoch == FAR_FUTURE_EPOCH],
        key=lambda index: (post.validators[index].activation_eligibility_epoch, index))
    for index in pre_activation:
        balance, validator = post.balances[index], post.validators[index]
        post.balances[index] = 0
        validator.effective_balance = 0
        validator.activation_eligibility_epoch = FAR_FUTURE_EPOCH
        append_pending_deposit(post, validator, balance)
    for index, validator in enumerate(post.validators):
        if validator.withdrawal_credentials[:1] == b"\x02":
            queue_excess_active_balance(post, index, c)
    return post


def compute_proposer_index(state, indices, seed, c):
    i, total = 0, len(indices)
    while True:
        candidate_index = indices[compute_shuffled_index(i % total, total, seed, c)]
        random_bytes = hash(seed + uint_to_bytes(i // 16))
        offset = i % 16 * 2
        random_value = int.from_bytes(random_bytes[offset:offset + 2], "little")
        effective_balance = state.validators[candidate_index].effective_balance
        if effective_balance * (2 ** 16 - 1) >= c.MAX_EFFECTIVE_BALANCE_ELECTRA * random_value:
            return candidate_index
        i += 1


def get_beacon_proposer_indices(state, epoch, c):
    indices = get_active_validator_indices(state, epoch)
    seed = get_seed(state, epoch, "00000000", c)
    start_slot = epoch * c.SLOTS_PER_EPOCH
    seeds = [hash(seed + uint_to_bytes(start_slot + i)) for i in range(c.SLOTS_PER_EPOCH)]
    return [compute_proposer_index(state, indices, seed, c) for seed in seeds]


def upgrade_to_fulu(pre, c):
    post, current_epoch = upgraded(pre, c.FULU_FORK_VERSION, c), get_current_epoch(pre, c)
    post.proposer_lookahead = []
    for i in range(c.MIN_SEED_LOOKAHEAD + 1):
        post.proposer_lookahead.extend(get_beacon_proposer_indices(pre, current_epoch + i, c))
    return post
