"""Parts of tools/bin/flamegraph."""

import io
import unittest
import xml.etree.ElementTree

from comparing import program_of

flamegraph = program_of("tools/bin/flamegraph")
SVG = "{http://www.w3.org/2000/svg}"


def boxes(root, earlier=None):
    """The boxes of a picture: name, samples and level."""
    text = "\n".join(flamegraph.picture(root, "title", earlier))
    groups = xml.etree.ElementTree.fromstring(text).iter(SVG + "g")
    return [(group.get("data-name"), int(group.get("data-samples")), int(group.get("data-level"))) for group in groups]


class Stacks(unittest.TestCase):
    def test_samples_are_added_up_along_a_stack(self):
        root = flamegraph.read(io.BytesIO(b"a;b 2\na 1\na;b;b 4\n"), "here")
        self.assertEqual((root.samples, root.callees[b"a"].samples), (7, 7))
        self.assertEqual(root.callees[b"a"].callees[b"b"].samples, 6)

    def test_what_is_no_stack_is_refused(self):
        for text in (b"", b"a\n", b"a 0\n", b"a -1\n", b"a 1\n\nb 1\n", b" 1\n"):
            with self.subTest(text), self.assertRaises(flamegraph.Refused):
                flamegraph.read(io.BytesIO(text), "here")

    def test_names_with_spaces_and_digits(self):
        self.assertEqual(list(flamegraph.read(io.BytesIO(b"f(int, int) 3\n"), "here").callees), [b"f(int, int)"])

    def test_more_boxes_than_are_kept(self):
        most, flamegraph.MOST_KEPT = flamegraph.MOST_KEPT, 3
        self.addCleanup(setattr, flamegraph, "MOST_KEPT", most)
        self.assertEqual(flamegraph.read([b"a;b;c 1\n", b"a;b 1\n"], "here").samples, 2)
        with self.assertRaisesRegex(flamegraph.Refused, "here has more than 3 boxes"):
            flamegraph.read([b"a;b;c 1\n", b"a;b;d 1\n"], "here")


class Widest(unittest.TestCase):
    def setUp(self):
        self.addCleanup(setattr, flamegraph, "MOST", flamegraph.MOST)
        flamegraph.MOST = 4

    def drawn(self, *stacks):
        return [row[0].decode() for row in flamegraph.drawn(flamegraph.read(stacks, "here"), None)]

    def test_the_widest(self):
        self.assertEqual(self.drawn(b"e 5", b"d 4", b"c 3", b"b 2", b"a 1"), ["all", "b", "c", "d", "e"])
        self.assertEqual(self.drawn(b"d 4", b"c 3", b"b 2", b"a 1"), ["all", "a", "b", "c", "d"])

    def test_the_first_of_equal_ones(self):
        self.assertEqual(self.drawn(*(b"%c 1" % letter for letter in b"fedcba")), ["all", "a", "b", "c", "d"])
        self.assertEqual(self.drawn(b"z 2", b"b;c;d;e 1", b"a 1"), ["all", "a", "b", "c", "z"])
        self.assertEqual(self.drawn(b"a;b;c;d;e;f 7"), ["all", "a", "b", "c", "d"])

    def test_sixty_thousand_equal_ones(self):
        flamegraph.MOST = 5_000
        self.assertEqual(len(self.drawn(*(b"m;f%d 1" % i for i in range(60_000)))), 5_001)


class Picture(unittest.TestCase):
    def test_boxes_lie_on_their_callers_in_the_order_of_names(self):
        root = flamegraph.read(io.BytesIO(b"a;c 1\na;b 2\n"), "here")
        self.assertEqual(boxes(root), [("all", 3, 0), ("a", 3, 1), ("b", 2, 2), ("c", 1, 2)])

    def test_names_are_escaped(self):
        root = flamegraph.read(io.BytesIO(b'<\xff&"\x01\xc2\x9b \xc3\xa9 1\n'), "here")
        self.assertEqual(boxes(root)[1][0], '<\\xff&"\\x01\\x9b \u00e9')

    def test_colours(self):
        self.assertEqual(flamegraph.colour(b"f", 5, None), flamegraph.colour(b"f", 9, None))
        self.assertEqual(flamegraph.colour(b"f", 5, 5), "rgb(235,235,235)")
        self.assertEqual(flamegraph.colour(b"f", 5, 0), "rgb(240,80,80)")
        self.assertEqual(flamegraph.colour(b"f", 0, 5), "rgb(80,80,245)")


class Options(unittest.TestCase):
    def test_words_that_are_refused(self):
        for words in ([], ["--every"], ["e.elf", "--flat"], ["-", "--every", "1"], ["e.elf", "f.elf"]):
            with self.subTest(words), self.assertRaises(flamegraph.Refused):
                flamegraph.main(words)


if __name__ == "__main__":
    unittest.main()
