"""What is seen of the names in docs/CLAIMS.md."""

import unittest

import claims


class Names(unittest.TestCase):
    def named(self, text):
        return [line for line in claims.missing(text) if " names " in line]

    def test_what_is_not_there_is_seen(self):
        self.assertEqual(self.named("`rvgprof::laws::completeness` and `Headline`"), [])
        self.assertEqual(len(self.named("`rvgprof::laws::completedness`")), 1)

    def test_an_edit_that_is_not_named_is_seen(self):
        text = claims.CLAIMS.read_text()
        self.assertEqual(list(claims.missing(text)), [])
        self.assertEqual(len(list(claims.missing(text.replace("`le2_swaps_bytes`", "")))), 1)


if __name__ == "__main__":
    unittest.main()
