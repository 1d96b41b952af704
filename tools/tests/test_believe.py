"""Tests of the page that says what has to be believed of the headline."""
import pathlib
import subprocess
import unittest

ROOT = pathlib.Path(__file__).resolve().parent.parent.parent
BELIEVE = ROOT / "bench" / "believe"


def printed(*words):
    return subprocess.run([BELIEVE, *words], capture_output=True, text=True, check=False)


class Believe(unittest.TestCase):
    def test_the_page_is_that_of_this_tree(self):
        self.assertEqual(printed().stdout, (ROOT / "docs" / "believe.md").read_text(encoding="utf-8"))

    def test_each_definition_has_a_comment_and_all_are_few(self):
        counted = printed("--count")
        self.assertEqual(counted.returncode, 0)
        self.assertNotIn("no comment", counted.stdout)
        lines = int(counted.stdout.split("| all |")[1].split("|")[1])
        self.assertLessEqual(lines, 1400)

    def test_a_definition_that_is_missing_is_said(self):
        missing = printed("vw_net:Cover.no_such_value")
        self.assertEqual((missing.returncode, missing.stdout), (1, ""))
        self.assertIn("no definition", missing.stderr)


if __name__ == "__main__":
    unittest.main()
