"""What is told of captures that are made by hand, with what has to be told (made_cases.py)."""

import unittest

from made_cases import cases
from test_told import analysed, told

from rtp_wire._tables import extension_rows, sentences_of, source_rows


class Cases(unittest.TestCase):
    def test_what_is_told(self) -> None:
        for case in cases():
            with self.subTest(case.name):
                analysis = analysed(case.data, case.sdp)
                said = list(sentences_of(analysis))
                self.assertEqual([it for it in case.said if it not in said], [], said)
                self.assertEqual([it for it in case.unsaid if it in said], [])
                if case.extensions is not None:
                    rows = {it["id"]: (it.get("uri", ""), it["origin"]) for it in told("extensions", extension_rows(analysis))}
                    self.assertEqual(rows.keys(), case.extensions.keys())
                    for id, (uri, origin) in case.extensions.items():
                        self.assertEqual((rows[id][0][-len(uri) :] if uri else rows[id][0], rows[id][1]), (uri, origin))
                if case.source:
                    (source,) = told("sources", source_rows(analysis))
                    self.assertEqual({it: source.get(it, "") for it in case.source}, case.source)


if __name__ == "__main__":
    unittest.main()
