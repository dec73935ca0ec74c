"""Maps of URIs, and those that the library doesn't know: an extension that both peers agreed on goes on from one to the
other. Expected values are worked out by hand from RFC 8285, 4.2, 4.3 and 5."""

import copy
import pickle
import subprocess
import sys
import threading
import unittest
import warnings
from typing import Any, List
from unittest.mock import patch

from rtp_wire import OWN_URIS, BadField, HeaderTemplate, Kind, Map, NewIds, OwnUris, Packet, Route, _map

MID = "urn:ietf:params:rtp-hdrext:sdes:mid"
DESCRIPTOR = "https://aomediacodec.github.io/av1-rtp-spec/#dependency-descriptor-rtp-header-extension"
# 96, 5, 100, 44, and of the one-byte form the elements 1 (AABBCCDD), 2 ("m"), 3 (0102) and 4 (EE); the payload "hi"
PACKET = bytes.fromhex("90600005 00000064 0000002C BEDE0004 13AABBCCDD 206D 310102 40EE 00000000 6869")


def of_many(count: int) -> List[str]:
    return [f"urn:x:{it}" for it in range(count)]


class Passing(unittest.TestCase):
    def test_an_extension_of_both_peers_goes_on(self) -> None:
        offer = {1: "urn:x:descriptor", 2: MID, 3: "urn:x:other", 4: "urn:x:mine"}
        answer = {9: MID, 12: "urn:x:descriptor", 3: "urn:x:Other", 5: "urn:x:other"}
        sender, receiver = Map.from_uris(offer), Map.from_uris(answer)
        ids = NewIds.between(sender, receiver)
        self.assertEqual(ids, NewIds({1: 12, 2: 9, 3: 5}))
        packet = Packet.parse(bytearray(PACKET), sender)
        packet.renumber(ids)
        # each with its data, and that of the id 4, which the receiver hasn't, is padding
        self.assertEqual(packet.body, bytes.fromhex("C3AABBCCDD 906D 510102 0000 00000000"))
        self.assertEqual(Packet.parse(bytes(packet), receiver).element(12), b"\xAA\xBB\xCC\xDD")
        (header,) = HeaderTemplate(PACKET, ids).write([Route(ssrc=45)])
        assert isinstance(header, bytes)
        self.assertEqual(header[12:], bytes.fromhex("BEDE0003 C3AABBCCDD 906D 510102 0000"))
        # and so do those whose kinds have no value
        ids = NewIds.between(Map.from_uris({1: DESCRIPTOR, 2: MID}), Map({7: Kind.DEPENDENCY_DESCRIPTOR}))
        self.assertEqual(ids, NewIds({1: 7}))
        for kind in (it for it in Kind if Kind.LAYERS <= it):
            self.assertEqual(NewIds.between(Map({1: kind}), Map({7: Kind.MID, 250: kind})), NewIds({1: 250}))

    def test_what_is_not_known_is_told(self) -> None:
        map = Map.from_uris([(4, MID), (200, "urn:x:b"), (5, "urn:x:a"), (6, "urn:x:b"), (7, MID + "s")])
        self.assertEqual(map.unknown, {200: "urn:x:b", 5: "urn:x:a", 6: "urn:x:b", 7: MID + "s"})
        self.assertEqual((map.left_out, len(map), map[4]), ({}, 5, Kind.MID))
        self.assertEqual((map[6], map.id_of(map[200])), (map[200], 6))
        self.assertEqual(len({map[200], map[5], map[7], Kind.MID}), 4)
        self.assertEqual([OWN_URIS.kind_of(uri) for uri in ("urn:x:a", "urn:x:b")], [map[5], map[6]])
        # what is told is a copy, and an id that gets another kind, or none, is known
        map.unknown.clear()
        map[5] = Kind.RID
        del map[200]
        self.assertEqual(map.unknown, {6: "urn:x:b", 7: MID + "s"})
        self.assertEqual(Map.standard().unknown, {})

    def test_the_uris_of_an_answer(self) -> None:
        offer = {4: MID, 200: "urn:x:b", 5: "urn:x:a", 6: "urn:x:b", 7: DESCRIPTOR}
        map = Map.from_uris(offer)
        self.assertEqual((map.uris, Map.from_uris(map.uris)), (offer, map))
        map[8], map[5] = Kind(200), Kind.RID
        del map[6]
        rid = "urn:ietf:params:rtp-hdrext:sdes:rtp-stream-id"
        self.assertEqual(map.uris, {4: MID, 5: rid, 7: DESCRIPTOR, 200: "urn:x:b"})

    def test_kinds_by_hand(self) -> None:
        map = Map({1: Kind.MID, 2: Kind.NTP_56})
        for kind in (Kind.NONE, Kind.from_uri(MID + "s"), 21, 127, 256, -1):
            told = f"^a kind is {int(kind)}, and not 1 to 20 or 128 to 255$"
            with self.assertRaisesRegex(BadField, told):
                map[1] = kind  # type: ignore[assignment]
            with self.assertRaisesRegex(BadField, told):
                Map({1: kind})  # type: ignore[arg-type]
        self.assertEqual(dict(map), {1: Kind.MID, 2: Kind.NTP_56})
        del map[1]
        self.assertEqual((dict(map), map.pop(1, None)), ({2: Kind.NTP_56}, None))


class Tables(unittest.TestCase):
    def test_each_has_128_numbers(self) -> None:
        own, uris = OwnUris(), of_many(128)
        self.assertEqual([int(own.kind_of(uri)) for uri in uris], list(range(255, 127, -1)))
        self.assertEqual([int(own.kind_of(uri)) for uri in reversed(uris)], list(range(128, 256)))
        self.assertEqual((own.kind_of("urn:y"), own.kind_of(MID), len(own)), (Kind.NONE, Kind.MID, 128))
        self.assertEqual(list(own), uris)
        self.assertEqual(repr(OwnUris(["urn:y", MID, "urn:z"])), "OwnUris(['urn:y', 'urn:z'])")
        with self.assertRaisesRegex(BadField, "more than 128 URIs"):
            OwnUris(of_many(129))

    def test_a_full_one_leaves_ids_out(self) -> None:
        own = OwnUris(of_many(127))
        with self.assertWarnsRegex(RuntimeWarning, r"ids have no entry \(Map.left_out\)") as warned:
            map = Map.from_uris({1: "urn:y", 2: MID, 3: "urn:z", 4: "urn:x:5", 5: "urn:y"}, own)
        self.assertEqual(warned.filename, __file__)
        self.assertEqual(dict(map), {1: 128, 2: Kind.MID, 4: 250, 5: 128})
        wanted = {1: "urn:y", 4: "urn:x:5", 5: "urn:y"}
        with self.assertWarns(RuntimeWarning):
            copied = copy.copy(map)
        for made in (map, copied, Map(map)):
            self.assertEqual((made.left_out, made.unknown), ({3: "urn:z"}, wanted))
        self.assertEqual(NewIds.between(map, map), NewIds({1: 1, 2: 2, 4: 4, 5: 1}))
        map[3] = Kind.RID
        self.assertEqual((map.left_out, map.unknown), ({}, wanted))
        with warnings.catch_warnings():
            warnings.simplefilter("error")
            self.assertEqual(Map.from_uris({9: "urn:y"}, own)[9], 128)

    def test_one_for_each_call(self) -> None:
        # what strangers say in one call takes no number of another one's
        with patch.object(_map, "OWN_URIS", OwnUris(of_many(128))):
            for _ in range(3):
                own = OwnUris()
                sender, receiver = Map.from_uris({1: "urn:y"}, own), Map.from_uris({2: "urn:z", 3: "urn:y"}, own)
                self.assertEqual((NewIds.between(sender, receiver), sender[1]), (NewIds({1: 3}), 255))
            with self.assertWarns(RuntimeWarning):
                self.assertEqual(Map.from_uris({1: "urn:y"}), Map())

    def test_numbers_of_two_tables(self) -> None:
        # the same number stands for one URI in one of them, and for another one in the other
        one, other = OwnUris(["urn:x", "urn:y"]), OwnUris(["urn:y", "urn:x", "urn:z"])
        offer = {1: "urn:x", 2: "urn:y", 3: MID, 4: "urn:w"}
        answer = {7: "urn:y", 8: "urn:x", 6: "urn:x", 9: MID, 5: "urn:z"}
        wanted = NewIds({1: 6, 2: 7, 3: 9})
        maps = [Map.from_uris(answer, it) for it in (one, other, None)]
        maps += [copy.deepcopy(maps[1]), pickle.loads(pickle.dumps(maps[1]))]
        for receiver in maps:
            self.assertEqual(NewIds.between(Map.from_uris(offer, one), receiver), wanted)
        # a number by hand is that of whoever sets it
        self.assertEqual(NewIds.between(Map.from_uris(offer, one), Map({5: one.kind_of("urn:y")})), NewIds({2: 5}))

    def test_numbers_by_hand_are_others(self) -> None:
        # a program that gives its extensions numbers from Kind.OWN on, and lets the others have theirs
        for own in (OwnUris(), OwnUris(of_many(100))):
            sender = Map.from_uris({1: "urn:x:mine", 2: "urn:y", 3: "urn:z"}, own)
            receiver = Map.from_uris({4: "urn:z", 5: "urn:x:mine", 6: "urn:y"}, own)
            sender[1] = receiver[5] = Kind.OWN
            self.assertEqual(NewIds.between(sender, receiver), NewIds({1: 5, 2: 6, 3: 4}))

    def test_what_is_refused_takes_no_number(self) -> None:
        own: Any = OwnUris()
        for id in (0, 256, -1):
            with self.assertRaisesRegex(BadField, f"^an id is {id}, and not 1 to 255$"):
                Map.from_uris({5: "urn:y", id: "urn:z"}, own)
        with self.assertRaisesRegex(TypeError, "^a URI is bytes, and not str$"):
            Map.from_uris({5: "urn:y", 6: b"urn:z"}, own)  # type: ignore[arg-type]
        self.assertEqual(list(own), [])
        for other in ({}, [], "urn:y"):
            with self.assertRaisesRegex(TypeError, f"^a table of URIs is {type(other).__name__}, and not OwnUris$"):
                Map.from_uris({5: "urn:y"}, other)  # type: ignore[arg-type]

    def test_threads_share_one(self) -> None:
        uris, found = of_many(128), []
        interval = sys.getswitchinterval()
        sys.setswitchinterval(1e-6)
        try:
            for _ in range(20):
                own = OwnUris()

                def ask(first: int, own: OwnUris = own) -> None:
                    found.append({uri: own.kind_of(uri) for uri in uris[first:] + uris[:first]})

                threads = [threading.Thread(target=ask, args=(it * 16,)) for it in range(8)]
                for thread in threads:
                    thread.start()
                for thread in threads:
                    thread.join()
                self.assertEqual([it == found[0] for it in found], [True] * 8)
                self.assertEqual(sorted(map(int, found[0].values())), list(range(128, 256)))
                found.clear()
        finally:
            sys.setswitchinterval(interval)


class Copies(unittest.TestCase):
    def test_a_map_keeps_its_uris(self) -> None:
        for own in (None, OwnUris(["urn:y"])):
            map = Map.from_uris({1: "urn:x:a", 2: MID}, own)
            map[3] = Kind(200)
            for made in (copy.copy(map), copy.deepcopy(map), pickle.loads(pickle.dumps(map)), Map(map)):
                self.assertEqual((type(made), made, made.unknown), (Map, map, {1: "urn:x:a"}))
                del made[1]
                self.assertEqual((len(map), map.unknown), (3, {1: "urn:x:a"}))
            one, other = pickle.loads(pickle.dumps([map, Map.from_uris({7: "urn:x:a"}, own)]))
            self.assertEqual(NewIds.between(one, other), NewIds({1: 7}))

    def test_another_process_has_other_numbers(self) -> None:
        map = Map.from_uris({1: "urn:x:a", 2: MID, 3: "urn:x:c"})
        map[4] = Kind(200)
        program = f"""if True:
            import pickle
            from rtp_wire import OWN_URIS, Map, NewIds
            own = Map.from_uris({{7: "urn:x:b", 8: "urn:x:c", 9: "urn:x:d", 10: "urn:x:a", 11: {MID!r}}})
            stored = pickle.loads({pickle.dumps(map)!r})
            assert stored.unknown == {{1: "urn:x:a", 3: "urn:x:c"}} and stored[4] == 200, stored
            print(dict(NewIds.between(stored, own)), pickle.loads({pickle.dumps(OWN_URIS)!r}) is OWN_URIS)
        """
        said = subprocess.run([sys.executable, "-c", program], stdout=subprocess.PIPE, check=True, text=True)
        self.assertEqual(said.stdout, "{1: 10, 2: 11, 3: 8} True\n")

    def test_a_table_is_copied(self) -> None:
        own = OwnUris(of_many(3))
        for made in (copy.copy(own), copy.deepcopy(own), pickle.loads(pickle.dumps(own))):
            self.assertEqual((list(made), made.kind_of("urn:y"), len(own)), (of_many(3), 252, 3))
        for made in (copy.copy(OWN_URIS), copy.deepcopy(OWN_URIS), pickle.loads(pickle.dumps(OWN_URIS))):
            self.assertIs(made, OWN_URIS)


if __name__ == "__main__":
    unittest.main()
