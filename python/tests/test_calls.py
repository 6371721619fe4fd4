"""What types tell of themselves, bytes that are checked once, and sessions over a schema."""

import threading
import unittest

import ssz

TYPES = {"ssz": 1, "types": [["Pair", {"container": [["a", "uint16"], ["b", {"list": ["uint8", 4]}]]}], ["Four", {"vector": ["uint8", 4]}]]}


class Calls(unittest.TestCase):
    """The calls below the values' classes."""

    def test_limits(self) -> None:
        schema = ssz.Schema(TYPES)
        self.assertEqual((schema.type("Four").limit, schema.type("Pair").limit), (4, None))

    def test_names(self) -> None:
        schema = ssz.Schema(TYPES)
        names = ["Four", "Pair", "boolean", "byte", "uint128", "uint16", "uint256", "uint32", "uint64", "uint8"]
        self.assertEqual((schema.names, schema.all_names()), (["Pair", "Four"], names))
        self.assertEqual(schema.numbered(), 0)
        self.assertEqual([schema.type(name).first_name for name in ("Pair", "uint8", "byte")], ["Pair", "byte", "byte"])
        self.assertEqual(schema.numbered(), 2)

    def test_slices(self) -> None:
        data = bytes.fromhex("aabb060000000102")
        with ssz.Schema(TYPES) as schema:
            pair = schema.type("Pair")
            opened = pair.open(data)
            self.assertRaises(ssz.InvalidBytes, pair.open, data[:5])
        self.assertEqual([opened.part(), opened.part("/b/1"), opened.part("/b/#len")], [data, b"\2", bytes([2]) + bytes(7)])
        self.assertEqual([data[opened.place(path)] for path in ("/", "/a", "/b")], [data, data[:2], data[6:]])
        for path, error in [("/b/2", ssz.NoSuchPart), ("/c", ssz.BadPath), ("b", ssz.BadPath)]:
            self.assertRaises(error, opened.part, path)
            self.assertRaises(error, opened.place, path)
        self.assertRaises(ssz.NoSuchPart, opened.place, "/b/#len")
        self.assertRaises(ssz.SszError, pair.open, data)
        opened.close()
        self.assertRaises(ssz.SszError, opened.part)

    def test_slices_are_shared_by_threads(self) -> None:
        data, wrong = bytes.fromhex("aabb060000000102"), []
        opened = ssz.Schema(TYPES).type("Pair").open(data)

        def ask() -> None:
            wrong.extend(turn for turn in range(500) if opened.part("/b") != data[6:])

        threads = [threading.Thread(target=ask) for _ in range(8)]
        for thread in threads:
            thread.start()
        for thread in threads:
            thread.join()
        self.assertEqual(wrong, [])

    def test_schemas_are_shared(self) -> None:
        data = bytes.fromhex("aabb060000000102")
        with ssz.Schema(TYPES) as schema:
            pair, other = schema.type("Pair"), schema.share()
            root = pair.hash_tree_root(data)
        self.assertEqual((other.numbered(), other.type("Pair").hash_tree_root(data), other.text), (1, root, schema.text))
        self.assertEqual(other.Pair.decode_bytes(data).hash_tree_root(), root)
        self.assertRaises(ssz.SszError, schema.share)

    def test_sessions_copy_their_schema(self) -> None:
        with ssz.Schema(TYPES) as schema:
            session, other = schema.session(), ssz.Session(schema.text)
        for each in (session, other):
            each.new("V", "Pair")
            self.assertEqual(each.get("V"), bytes.fromhex("000006000000"))
        self.assertRaises(ssz.SszError, schema.session)

    def test_proofs_by_number(self) -> None:
        session = ssz.Schema(TYPES).session()
        session.load("V", "Pair", bytes.fromhex("aabb060000000102"))
        proof = session.prove("V", 7, 2)
        self.assertEqual(list(proof.leaves), [2, 7])
        self.assertTrue(proof.verify(session.root("V")))
        self.assertEqual([session.prove("V", "/a", "/b/#len"), session.prove("V", 2, "/b/#len")], [proof, proof])
        for wanted, indices in [("NoNode", [8]), ("Nested", [1, 2]), ("NoNode", [0]), ("SYNTAX", [-1]), ("NoNode", [1 << 127])]:
            with self.assertRaises(ssz.SszError) as caught:
                session.prove("V", *indices)
            self.assertEqual(caught.exception.name, wanted)


if __name__ == "__main__":
    unittest.main()
