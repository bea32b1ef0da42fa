"""Parts of tools/bin/callgrind."""

import pathlib
import tempfile
import unittest

from comparing import program_of
from elf_files import LOW, NOP, elf, words_of

callgrind = program_of("tools/bin/callgrind")


class Costs(unittest.TestCase):
    def test_what_stands_on_no_stack_goes_to_the_first(self):
        self.assertEqual(list(callgrind.shared([5, 6], [0, 0])), [[5, 6], [0, 0]])
        self.assertEqual(list(callgrind.shared([5, 7], [1, 3])), [[1, 2], [4, 5]])
        self.assertEqual([sum(row) for row in callgrind.shared([1] * 8, [1, 5, 2])], [1, 5, 2])

    def test_each_edge_has_a_call(self):
        self.assertEqual(callgrind.each_called([[9, 1], [0, 0]]), [[8, 1], [1, 0]])
        self.assertEqual(callgrind.each_called([[1], [0]]), [[1], [1]])
        self.assertEqual(callgrind.each_called([[1, 1], [0, 0]]), [[0, 1], [1, 0]])

    def test_lines_of_a_file(self):
        f, g = callgrind.Part("f", 0, [(0, 8)], [(4, 1, 2, 4)]), callgrind.Part("f 10", 16, [(16, 4)], [])
        with tempfile.TemporaryDirectory() as folder:
            program = pathlib.Path(folder) / "e"
            program.write_bytes(elf(words_of([NOP] * 8), [(b"f", LOW), (b"f", LOW + 16)]))
            text = "\n".join(callgrind.lines_of(str(program), callgrind.Listing("Ir : Instructions", "note", [f, g])))
        own, call = r"fn=\(1\) f\n0x0 0 8\n", r"cfn=\(2\) f 10\ncalls=2 0x10 0\n0x4 0 4\n"
        self.assertRegex(text, own + call)
        self.assertTrue(text.endswith("totals: 12"))


if __name__ == "__main__":
    unittest.main()
