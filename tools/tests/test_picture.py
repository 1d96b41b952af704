"""Tests of tools/picture."""
import re
import unittest
import xml.etree.ElementTree as tree

from cases import DATA, ROOT, TOOLS, VWIRES, Case, full_board

PICTURE = TOOLS / "picture"
SVG = "{http://www.w3.org/2000/svg}"


@unittest.skipUnless(VWIRES, "no vwires")
class Pictures(Case):
    def drawn(self, *words):
        """The picture that a call makes."""
        done = self.run_words([PICTURE, *words, "--out", "p.svg", "--vwires", VWIRES])
        self.assertEqual((done.returncode, done.stdout), (0, ""), done.stderr)
        picture = tree.parse(self.folder / "p.svg").getroot()
        kinds = {"svg", "style", "rect", "text", "title", "g", "line", "polygon", "polyline", "circle"}
        self.assertLessEqual({element.tag.removeprefix(SVG) for element in picture.iter()}, kinds)
        return picture

    def words(self, picture):
        """The texts of a picture."""
        return [element.text for element in picture.iter(f"{SVG}text")]

    def test_the_toggle_in_a_triangle(self):
        words = [DATA / "toggle.blif", DATA / "triangle.board", "--plan", DATA / "toggle.plan"]
        picture = self.drawn(*words)
        texts = self.words(picture)
        self.assertEqual(texts[0], "toggle.blif on triangle.board: 2 cells, 4 wires, a period of 2")
        # q goes to chip 1, whose gate d waits for it, and d to chip 2
        chain = [text for text in texts if re.match("[0-9]+[.] ", text)]
        first, second = "q: chip 2 to chip 1, pin 0, microcycle 0", "d: chip 1 to chip 2, pin 0, microcycle 1"
        self.assertEqual(chain, [f"1.  {first}", f"2.  {second}"])
        slots = [element.text for element in picture.iter(f"{SVG}title") if ", microcycle " in element.text]
        sent = ["d to chip 2, microcycle 1", "en to chip 1, microcycle 0", "q to chip 1, microcycle 0"]
        self.assertEqual(sorted(slots), [f"{slot}, pin 0" for slot in [*sent, "q to host, microcycle 0"]])
        self.assertIn("link 3, chip 1 to chip 2: 1 pin, delay 1, 1 of 2 slots, 50 %", texts)
        self.assertNotIn("script", (self.folder / "p.svg").read_text())

    def test_the_picture_of_the_tour(self):
        self.drawn(DATA / "updown.blif", DATA / "duo.board")
        self.assertEqual((self.folder / "p.svg").read_text(), (ROOT / "docs" / "plan.svg").read_text())

    def test_links_stand_by_their_fill_and_those_of_the_chain_are_kept(self):
        self.write("b.board", full_board(2, 6, 1, 2))
        picture = self.drawn(DATA / "updown.blif", "b.board")
        links = [text for text in self.words(picture) if text.startswith("link ")]
        fills = [int(re.search("([0-9]+) %", text)[1]) for text in links]
        self.assertEqual(fills, sorted(fills, reverse=True))
        few = self.words(self.drawn(DATA / "updown.blif", "b.board", "--links", "0"))
        chain = [text for text in few if re.match("[0-9]+[.] ", text)]
        kept = [text for text in few if text.startswith("link ")]
        self.assertTrue(0 < len(kept) <= len(chain))
        self.assertLess(len(kept), len(links))
        self.assertTrue(any("links more are left out" in text for text in few))

    def test_a_chain_goes_on_over_a_chip_between(self):
        # a ring of one way: from the host to chip 1, and on to chip 2
        links = "".join(f"link {start} {end} 1 2\n" for start, end in [(0, 1), (1, 2), (2, 0)])
        self.write("b.board", f"board 2\nchips 2\ncells 1\nsettle 0\npins 4\n{links}")
        self.write("d.blif", ".model d\n.inputs a<&>\n.outputs q r\n.latch a<&> q 0\n.latch q r 0\n.end\n")
        picture = self.drawn("d.blif", "b.board")
        chain = [text for text in self.words(picture) if re.match("[0-9]+[.] ", text)]
        self.assertEqual(len(chain), 2)
        titles = " ".join(element.text for element in picture.iter(f"{SVG}title"))
        self.assertIn("a<&> to chip", titles)

    def test_a_design_that_uses_no_link(self):
        self.write("d.blif", ".model d\n.inputs a\n.outputs a\n.end\n")
        picture = self.drawn("d.blif", DATA / "triangle.board")
        self.assertIn("The longest chain, 0 hops:", self.words(picture))

    def test_refusals(self):
        text = (DATA / "toggle.plan").read_text().replace("hop 1 2 0 1", "hop 1 2 0 0")
        words = [DATA / "toggle.blif", DATA / "triangle.board", "--out", "p.svg", "--vwires", VWIRES]
        done = self.run_words([PICTURE, *words, "--plan", self.write("bad.plan", text)])
        wanted = "vwires: status 4: plan 14: wire 1 sent at 0, usable at 1\n"
        self.assertEqual((done.returncode, done.stderr), (1, wanted))
        done = self.run_words([PICTURE, *words[:2], "--out", "no/p.svg", "--vwires", VWIRES])
        self.assertEqual((done.returncode, done.stderr.splitlines()[-1]), (2, "no/p.svg: No such file or directory"))
        self.assertEqual(self.run_words([PICTURE, *words[:2]]).returncode, 2)
        self.assertIn("tools/picture DESIGN BOARD --out plan.svg", self.printed(PICTURE, "--help"))
