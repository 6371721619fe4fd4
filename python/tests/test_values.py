"""Values as objects: attributes, elements, slices, copies, proofs."""

import copy
import threading
import unittest
from array import array

import ssz
from ssz.ethereum import deneb, fork
from ssz.ethereum.minimal import electra

kinds = ssz.Schema({"ssz": 1, "types": [
    ["Choice", {"union": [None, "uint64", {"list": ["uint16", 4]}]}],
    ["Marks", {"bitlist": 9}],
    ["Rows", {"list": [{"list": ["uint16", 4]}, 4]}],
    ["Odd", {"container": [["copy", "uint8"], ["_hidden", "uint8"], ["from", "Choice"]]}],
    ["Big", "uint256"],
]})


class Values(unittest.TestCase):
    """What users of other libraries of Python know."""

    def setUp(self) -> None:
        self.state = deneb.BeaconState(slot=5)
        for number in range(8):
            self.state.validators.append(deneb.Validator(effective_balance=number))
            self.state.balances.append(10 * number)

    def test_a_known_root(self) -> None:
        digest = deneb.ForkData(current_version="0x04000000",
                                genesis_validators_root="0x4b363db94e286120d76eb905340fdd4e54bfe9f06bf33ff6cf5ad27f511bfe95")
        self.assertEqual(digest.hash_tree_root()[:4].hex(), "6a95a1a9")

    def test_attributes_and_elements(self) -> None:
        self.state.validators[7].effective_balance = 32 * 10**9
        self.state.balances[7] += 5
        self.assertEqual(self.state.validators[7].effective_balance, 32 * 10**9)
        self.assertEqual(self.state.balances[-1], 75)
        self.assertEqual(len(self.state.validators), 8)
        self.assertIsInstance(self.state.validators[7], deneb.Validator)
        self.state.latest_block_header.parent_root = "0x" + "11" * 32
        self.assertEqual(self.state.latest_block_header.parent_root, b"\x11" * 32)

    def test_the_bytes_have_the_same_root(self) -> None:
        self.state.validators[3].slashed = True
        data = self.state.encode_bytes()
        self.assertEqual(self.state.hash_tree_root(), deneb.type("BeaconState").hash_tree_root(data))
        again = deneb.BeaconState.decode_bytes(data)
        self.assertEqual(again, self.state)
        self.assertEqual(ssz.get_hash_tree_root(again), self.state.hash_tree_root())
        self.assertEqual(ssz.encode(ssz.decode(data, deneb.BeaconState)), data)

    def test_a_part_has_its_own_root(self) -> None:
        validator = self.state.validators[3]
        self.assertEqual(validator.hash_tree_root(), deneb.type("Validator").hash_tree_root(validator.encode_bytes()))
        self.assertEqual(self.state.fork.hash_tree_root(), deneb.Fork().hash_tree_root())

    def test_slices(self) -> None:
        self.assertEqual(self.state.balances[2:5], array("Q", [20, 30, 40]))
        self.assertEqual([each.effective_balance for each in self.state.validators[6:]], [6, 7])
        self.state.balances[0:2] = [7, 8]
        self.assertEqual(list(self.state.balances)[:3], [7, 8, 20])
        self.state.balances[:] = array("Q", range(8))
        self.assertEqual(self.state.balances, list(range(8)))
        self.assertEqual(bytes(self.state.balances)[:9], bytes(8) + b"\1")
        self.assertEqual(sum(self.state.balances), 28)

    def test_copies_share_and_differ(self) -> None:
        other = self.state.copy()
        before = self.state.hash_tree_root()
        other.slot = 6
        self.assertEqual(self.state.slot, 5)
        self.assertEqual(self.state.hash_tree_root(), before)
        self.assertNotEqual(other.hash_tree_root(), before)
        third = copy.deepcopy(other)
        third.balances.pop()
        self.assertEqual((len(third.balances), len(other.balances)), (7, 8))

    def test_versions_are_given_up(self) -> None:
        session, count = deneb._values.session, len(deneb._values.session.names())
        other = self.state.copy()
        part = other.fork
        del other
        self.assertEqual(len(session.names()), count + 1)
        del part
        self.assertEqual(len(session.names()), count)

    def test_objects(self) -> None:
        shown = self.state.to_obj()
        self.assertEqual(shown["balances"][1], 10)
        self.assertEqual(self.state.to_api()["balances"][1], "10")
        self.assertEqual(deneb.BeaconState.from_obj(shown), self.state)
        self.assertEqual(deneb.BeaconState.from_obj(self.state.to_api()), self.state)

    def test_proofs(self) -> None:
        proof = self.state.prove("/slot", "/validators/3/slashed", "/balances/#len")
        self.assertTrue(proof.verify(self.state.hash_tree_root()))
        self.assertFalse(proof.verify(bytes(32)))
        self.assertEqual(ssz.Proof.parse(str(proof)), proof)
        one = self.state.finalized_checkpoint.prove("/root")
        branch = one.branch()
        self.assertEqual((branch.index, len(branch.nodes)), (105, 6))
        self.assertEqual(ssz.Proof.of_branch(branch.index, branch.leaf, branch.nodes), one)
        self.assertTrue(ssz.verify(self.state.hash_tree_root(), str(one)))

    def test_bits(self) -> None:
        marks = kinds.Marks([True, False, True])
        marks.append(True)
        marks[1] = True
        self.assertEqual(list(marks), [True] * 4)
        self.assertEqual((marks.pop(), len(marks), marks.encode_bytes()), (True, 3, b"\x0f"))
        self.state.justification_bits[1] = True
        self.assertEqual(list(self.state.justification_bits), [False, True, False, False])

    def test_unions(self) -> None:
        choice = kinds.Choice()
        self.assertEqual((choice.selector, choice.value), (0, None))
        choice.choose(1, 7)
        self.assertEqual((choice.selector, choice.value, choice.encode_bytes()), (1, 7, b"\1" + (7).to_bytes(8, "little")))
        choice.choose(2, [1, 2])
        choice.value[1] = 9
        self.assertEqual(choice.to_obj(), {"selector": 2, "value": [1, 9]})

    def test_lists_of_lists(self) -> None:
        rows = kinds.Rows([[1], [2, 3]])
        rows[0].append(4)
        rows.append([5])
        self.assertEqual([list(row) for row in rows], [[1, 4], [2, 3], [5]])
        self.assertEqual(list(rows.pop()), [5])

    def test_names_that_python_has(self) -> None:
        odd = kinds.Odd(copy=3, _hidden=4)
        self.assertEqual((odd["copy"], odd["_hidden"]), (3, 4))
        odd["from"] = (1, 8)
        self.assertEqual(odd["from"].value, 8)

    def test_plain_types(self) -> None:
        self.assertEqual(kinds.Big(7), 7)
        self.assertEqual(kinds.Big.decode_bytes(kinds.Big.encode_bytes(1 << 200)), 1 << 200)
        self.assertEqual(deneb.type("Validator").size, 121)
        self.assertEqual(deneb.type("Checkpoint").fields, ["epoch", "root"])

    def test_other_schemas(self) -> None:
        self.assertEqual(electra.type("BeaconState").gindex("/finalized_checkpoint/root"), 169)
        self.assertEqual(fork("capella").BeaconState().copy().slot, 0)

    def test_many_threads(self) -> None:
        failed: list[BaseException] = []

        def work(number: int) -> None:
            try:
                for _ in range(200):
                    self.state.balances[number] += 1
                    deneb.type("Checkpoint").hash_tree_root(bytes(40))
            except BaseException as error:
                failed.append(error)

        threads = [threading.Thread(target=work, args=(number,)) for number in range(4)]
        for thread in threads:
            thread.start()
        for thread in threads:
            thread.join()
        self.assertEqual(failed, [])
        self.assertEqual(list(self.state.balances)[:4], [200, 210, 220, 230])


if __name__ == "__main__":
    unittest.main()
