"""Tests of docs/DEFINITION.md: its edition, and the names that it gives of the formal text. Its rows are tested in compare/ and beside/."""

import pathlib
import re
import unittest

ROOT = pathlib.Path(__file__).resolve().parent.parent
DOCUMENT = (ROOT / "docs/DEFINITION.md").read_text()
SPECS = ROOT / "crates/definition/specs"

# The paragraphs that are about the formal text.
FORMAL = "\n".join(line for line in DOCUMENT.splitlines() if line.startswith("> **Formal text**"))


class Edition(unittest.TestCase):
    def test_the_edition_is_the_header_s_and_the_last_of_the_table(self):
        header = (ROOT / "include/sobrizenta.h").read_text()
        edition = re.search(r"^#define SOBRIZENTA_EDITION (\d+)$", header, re.MULTILINE)[1]
        self.assertEqual(re.findall(r"^\*\*Edition (\d+)\.\*\*", DOCUMENT, re.MULTILINE), [edition])
        table = DOCUMENT.split("\n| edition |")[1].split("\n\n")[0]
        editions = re.findall(r"^\| (\d+) \|", table, re.MULTILINE)
        self.assertEqual(editions, [str(each) for each in range(1, int(edition) + 1)])


class FormalText(unittest.TestCase):
    def test_the_sections_are_the_files_in_their_order(self):
        files = re.findall(r"^pub mod (\w+)", (SPECS / "Lib.antt").read_text(), re.MULTILINE)
        self.assertEqual(re.findall(r"\*\*Formal text\*\* \(`(\w+)\.antt`\)", FORMAL), files)

    def test_every_name_is_there(self):
        """As a word of the definition's files, or as a file, comments left out."""
        files = [*ROOT.glob("crates/*/specs/*.antt"), *ROOT.glob("crates/definition/src/*.rt")]
        words = {file.stem for file in files}
        for file in files:
            lines = file.read_text().splitlines()
            words.update(word for line in lines for word in re.findall(r"\w+", re.split(r"--|//", line)[0]))
        names = re.findall(r"`(\w+)`", FORMAL)
        self.assertGreater(len(names), 100)
        self.assertEqual([name for name in names if name not in words], [])


if __name__ == "__main__":
    unittest.main()
