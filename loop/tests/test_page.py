"""The page and the drawing: well-formed, without scripts and links, with what the guide of the page promises."""

import os
import re
import tempfile
import unittest
from xml.etree import ElementTree

from samples import TWO_WRITERS, history_of, log_text, loop
from test_show import SKEW, STALE
from monkeyloop.page import Drawing, page
from monkeyloop.show import Story

SVG = "{http://www.w3.org/2000/svg}"


def drawn(text):
    return Drawing(Story(history_of(text))).svg()


def classes(svg, tag):
    return [it.get("class", "") for it in ElementTree.fromstring(svg).iter(SVG + tag)]


def many_sessions(sessions):
    """So many sessions that write rows of their own, and one whose read of the first row is stale."""
    lines = []
    for session in range(2, sessions + 2):
        lines += ["open %d" % session, "begin %d rc" % session, "write %d p.0.%d true" % (session, session + 10), "commit %d" % session]
    last = sessions + 2
    lines += ["open %d" % last, "begin %d rc" % last, "read %d f.0.1.1 1 3 1 10" % last, "commit %d" % last]
    return log_text("rc", *TWO_WRITERS, *lines)


class Page(unittest.TestCase):
    def test_well_formed_and_alone(self):
        for text in (STALE, SKEW, many_sessions(9), log_text("rc", order="0"), log_text("rc", "open 1", "begin 1 rc", order="0")):
            for whole in (page("a & b", "<told>", Story(history_of(text))), drawn(text)):
                tree = ElementTree.fromstring(whole)
                tags = {it.tag.split("}")[-1] for it in tree.iter()}
                self.assertFalse(tags & {"script", "a", "link", "img", "iframe", "object", "use", "image"})
                for it in tree.iter():
                    for name, value in it.attrib.items():
                        self.assertFalse(name.startswith("on") or name.split("}")[-1] in ("href", "src"), name)
                        self.assertFalse("://" in value)
                self.assertNotIn("@import", whole)
                self.assertEqual(set(re.findall(r"url\((.)", whole)) - {"#"}, set())

    def test_texts_that_no_page_may_hold(self):
        lines = ("begin 1 rc", "write 1 f.0.1.1 x3c623e0001266726", "commit 1")
        text = log_text("rc", *TWO_WRITERS, *lines).replace("define 1 x74", "define 1 x3c0722")
        ElementTree.fromstring(page("t", "\\x00", Story(history_of(text))))
        self.assertIn("&#x27;&lt;b&gt;\\x00\\x01&amp;g&amp;&#x27;".replace("&amp;g&amp;", "&amp;g&amp;"), drawn(text))

    def test_what_stands_on_top_and_below(self):
        story = Story(history_of(STALE))
        whole = page("cc-7", "assert 4 &lt;= 3", story)
        tree = ElementTree.fromstring(whole)
        self.assertEqual(tree.find("body/h1").text, "cc-7")
        self.assertEqual([it.text for it in tree.iter("li")], story.stale_lines())
        self.assertEqual(tree.find("body/pre").text, story.text())
        self.assertEqual([it.get("type") for it in tree.iter("input")], ["checkbox"])
        self.assertIn("#g:not(:checked) ~ .frame .from { display: none; }", whole)

    def test_long_lists_unfold(self):
        lines = ["open 2"] + ["begin 2 rc", "read 2 f.0.1.1 1 3 1 10", "commit 2"] * 15
        tree = ElementTree.fromstring(page("t", "", Story(history_of(log_text("rc", *TWO_WRITERS, *lines)))))
        self.assertEqual((len(tree.findall("body/ul/li")), len(tree.findall("body/details/ul/li"))), (12, 3))
        self.assertEqual(tree.find("body/details/summary").text, "3 more")

    def test_arrows(self):
        kinds = [it.split()[0] for it in classes(drawn(STALE), "path") if it]
        # one each, and one each in the legend; the presence comes from another session
        self.assertEqual(sorted(kinds), ["from", "from", "missed", "missed", "took", "took"])
        titles = [it.text for it in ElementTree.fromstring(drawn(STALE)).iter(SVG + "title")]
        self.assertIn("takes: t[1].column 2 = 10, of T1 of session 1", titles)
        self.assertIn("misses: 20, of T2 of session 1", titles)

    def test_an_arrow_from_the_state_before_all_comes_from_its_box(self):
        text = log_text("rc", *TWO_WRITERS, "open 2", "begin 2 rc", "read 2 p.0.2 0 2 0 false", "commit 2")
        tree = ElementTree.fromstring(drawn(text))
        (box,) = [it for it in tree.iter(SVG + "rect") if it.get("class") == "start"]
        took = [it for it in tree.iter(SVG + "path") if it.get("class") == "took" and it.find(SVG + "title") is not None]
        start = re.match(r"M(\d+) (\d+)", took[0].get("d"))
        left, top, width, height = (int(box.get(name)) for name in ("x", "y", "width", "height"))
        self.assertEqual(int(start.group(2)), top + height)
        self.assertTrue(left <= int(start.group(1)) <= left + width)

    def test_lanes_pieces_and_a_rollback(self):
        svg = drawn(SKEW)
        heads = [it.text for it in ElementTree.fromstring(svg).iter(SVG + "text") if it.get("class") == "head"]
        self.assertEqual(heads, ["session 2", "session 3"])
        self.assertEqual(classes(svg, "rect").count("box"), 3)
        self.assertEqual(classes(svg, "rect").count("box rolled"), 3)
        # a dotted line to each piece but the first
        self.assertEqual(classes(svg, "line").count("goes"), 4)
        self.assertIn("the state before all, with 2 rows of the setup", svg)

    def test_boxes_stand_below_one_another(self):
        boxes = [it for it in ElementTree.fromstring(drawn(SKEW)).iter(SVG + "rect") if (it.get("class") or "").startswith("box")]
        places = [(int(it.get("y")), int(it.get("height"))) for it in boxes]
        for (y, height), (below, _) in zip(places, places[1:]):
            self.assertGreater(below, y + height)

    def test_many_sessions_are_folded(self):
        svg = drawn(many_sessions(20))
        heads = [it.text for it in ElementTree.fromstring(svg).iter(SVG + "text") if it.get("class") == "head"]
        self.assertEqual(heads, ["session 1", "session 22", "the 20 other sessions"])
        self.assertIn("T3 to T22: 20 transactions", svg)
        self.assertEqual(classes(svg, "rect").count("box bad"), 1)
        few = drawn(many_sessions(2))
        self.assertNotIn("other session", few)
        self.assertEqual(classes(few, "rect").count("folded"), 0)


class Command(unittest.TestCase):
    def setUp(self):
        room = tempfile.TemporaryDirectory()
        self.addCleanup(room.cleanup)
        self.room = room.name

    def file(self, name, text):
        path = os.path.join(self.room, name)
        os.makedirs(os.path.dirname(path), exist_ok=True)
        with open(path, "w") as file:
            file.write(text)
        return path

    def read(self, name):
        with open(os.path.join(self.room, name)) as file:
            return file.read()

    def test_where_it_goes(self):
        log = self.file("cc-7/log", STALE)
        case = os.path.dirname(log)
        self.assertEqual(loop("page", case), (0, os.path.join(case, "page.html") + "\n", ""))
        self.assertEqual(loop("page", log), (0, log + ".html\n", ""))
        out = os.path.join(self.room, "a.html")
        self.assertEqual(loop("page", "--out", out, log), (0, out + "\n", ""))
        self.assertTrue(self.read("a.html").startswith("<!DOCTYPE html>"))

    def test_the_drawing_alone(self):
        log, out = self.file("a.log", STALE), os.path.join(self.room, "a.svg")
        self.assertEqual(loop("page", "--out", out, log), (0, out + "\n", ""))
        self.assertEqual(self.read("a.svg"), drawn(STALE))

    def test_a_file_that_cannot_be_written(self):
        log, out = self.file("a.log", STALE), os.path.join(self.room, "no", "a.svg")
        self.assertEqual(loop("page", "--out", out, log), (3, "", "monkeydb page: %s: No such file or directory\n" % out))
        status, _, said = loop("page", "--out", "/dev/full", log)
        self.assertEqual((status, said), (3, "monkeydb page: /dev/full: No space left on device\n"))


if __name__ == "__main__":
    unittest.main()
