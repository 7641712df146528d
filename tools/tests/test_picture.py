"""picture: what stands in it, and what can't be drawn."""
import xml.dom.minidom

from calls import ROOT, ToolTest

EXAMPLES = ROOT / "examples"


class Pictures(ToolTest):
    def drawn(self, *words):
        status, text, said = self.call("tools/picture", *words)
        self.assertEqual((status, said), (0, ""))
        return xml.dom.minidom.parseString(text)

    def lines(self, picture, colour):
        return [line for line in picture.getElementsByTagName("line") if line.getAttribute("stroke") == colour]

    def test_picks_are_thick(self):
        picture = self.drawn(EXAMPLES / "crew.arcs", EXAMPLES / "crew.certificate")
        self.assertEqual(len(self.lines(picture, "#1b5fa7")), 4)
        self.assertIn("A best plan: the least total is 145.", picture.toxml())

    def test_names_are_escaped(self):
        self.convert("<b>&,\"x\"\"\",4\n")
        self.write("certificate", "auction 1\noptimal 1 4\nassign 1 1 4\nprice 1 0\n")
        picture = self.drawn("table.arcs", "certificate", "--names", "table.names")
        self.assertIn("<b>&", [text.firstChild.data for text in picture.getElementsByTagName("text")])

    def test_hall_set_stands_out(self):
        self.write("certificate", "auction 1\ninfeasible 3 2\nperson 1\nperson 2\nperson 4\nobject 1\nobject 3\n")
        picture = self.drawn(EXAMPLES / "crew_without_licences.arcs", "certificate")
        self.assertEqual(len(self.lines(picture, "#b8322a")), 5)

    def test_more_objects(self):
        self.convert("a,x,4\na,y,5\n")
        self.write("certificate", "auction 2\noptimal 1 2 4\nassign 1 1 4\nprice 1 0\nprice 2 0\n")
        for words in ["--names", "table.names"], ["--objects", "2"]:
            picture = self.drawn("table.arcs", "certificate", *words)
            self.assertEqual(len(self.lines(picture, "#1b5fa7")), 1)

    def test_dummies_are_left_out(self):
        self.convert("a,x,4\nb,x,5\n")
        self.write("certificate", "auction 1\noptimal 2 4\nassign 1 1 4\nassign 2 2 0\nprice 1 0\nprice 2 12\n")
        picture = self.drawn("table.arcs", "certificate", "--names", "table.names")
        self.assertEqual(len(self.lines(picture, "#1b5fa7")), 1)

    def test_many_arcs_without_labels(self):
        """Of 16 persons and 240 arcs that all matter no costs are written."""
        self.write("problem", "16\n" + "".join(f"{person} {thing} 7\n" for person in range(1, 17) for thing in range(1, 16)))
        numbers = [f"person {number}\n" for number in range(1, 17)] + [f"object {number}\n" for number in range(1, 16)]
        self.write("certificate", "auction 1\ninfeasible 16 15\n" + "".join(numbers))
        picture = self.drawn("problem", "certificate")
        self.assertEqual(len(self.lines(picture, "#b8322a")), 240)
        self.assertNotIn("7", [text.firstChild.data for text in picture.getElementsByTagName("text") if text.getAttribute("font-size") == "12.5"])

    def heat_map(self, persons, *words):
        """The picture of persons who all take the object of their number, with arcs to the next one."""
        arcs = [f"{n} {n} {n}\n{n} {n % persons + 1} {persons + n}\n" for n in range(1, persons + 1)]
        self.write("many.arcs", f"{persons}\n" + "".join(arcs))
        total = persons * (persons + 1) // 2
        lines = [f"assign {n} {n} {n}\n" for n in range(1, persons + 1)] + [f"price {n} 0\n" for n in range(1, persons + 1)]
        self.write("many.certificate", f"auction 1\noptimal {persons} {total}\n" + "".join(lines))
        return self.drawn("many.arcs", "many.certificate", *words)

    def test_heat_maps(self):
        """Where names don't fit side by side, with names or numbers at the sides; of large ones a square stands for more pairs."""
        for persons, picks, label, told in [(18, 18, "18", "a square is a pair"), (41, 41, "41", "a square is a pair"), (130, 65, "1", "a square is 2 by 1 pairs"), (1000, 112, "1", "a square is 9 by 7 pairs")]:
            picture = self.heat_map(persons)
            marks = [mark for mark in picture.getElementsByTagName("rect") if mark.getAttribute("fill") == "#e0701a"]
            texts = [text.firstChild.data for text in picture.getElementsByTagName("text")]
            with self.subTest(persons):
                self.assertIn(label, texts)
                self.assertTrue(any(text.startswith(told) for text in texts), texts)
                self.assertGreaterEqual(len(marks), picks)
                self.assertLess(len(picture.toxml()), 400_000)

    def test_scale_of_a_heat_map(self):
        """The least and the greatest cost stand beside the colours, and what isn't allowed is hatched, which no cost is."""
        picture = self.heat_map(41)
        texts = [text.firstChild.data for text in picture.getElementsByTagName("text")]
        self.assertEqual((texts.count("1"), texts.count("82")), (2 + 1, 1))
        fills = [mark.getAttribute("fill") for name in ("rect", "path") for mark in picture.getElementsByTagName(name)]
        self.assertIn("url(#none)", fills)
        self.assertNotIn("#eef3f8", fills)

    def test_heat_map_of_a_hall_set(self):
        self.write("many.arcs", "45\n" + "".join(f"{n} {min(n, 44)} 5\n" for n in range(1, 46)))
        self.write("many.certificate", "auction 1\ninfeasible 2 1\nperson 44\nperson 45\nobject 44\n")
        picture = self.drawn("many.arcs", "many.certificate")
        marks = [mark for mark in picture.getElementsByTagName("rect") if mark.getAttribute("fill") == "#b8322a"]
        self.assertEqual(len(marks), 3)

    def test_text_fits(self):
        """A box is as wide as its name in a wide font: 15 pixels for a W or a Chinese character."""
        self.convert("WWWWWWWWWW,\u6c34\u6c34\u6c34\u6c34,4\n")
        self.write("certificate", "auction 1\noptimal 1 4\nassign 1 1 4\nprice 1 0\n")
        picture = self.drawn("table.arcs", "certificate", "--names", "table.names")
        boxes = [float(box.getAttribute("width")) for box in picture.getElementsByTagName("rect") if box.getAttribute("rx") == "8"]
        self.assertEqual(boxes, [181.0, 91.0])

    def test_widths(self):
        """No picture is wider than a page can show, whatever the names."""
        for count, name in [(3, "x" * 9_000), (17, "W"), (18, "W"), (12, "Wartung der Halle "), (40, "Mehringdamm "), (120, "\u6c34" * 30)]:
            self.convert("".join(f"{name}{n},{name}{n},{n}\n" for n in range(1, count + 1)), "--pairs")
            arcs = [f"assign {n} {n} {n}\n" for n in range(1, count + 1)] + [f"price {n} 0\n" for n in range(1, count + 1)]
            self.write("certificate", f"auction 1\noptimal {count} {count * (count + 1) // 2}\n" + "".join(arcs))
            picture = self.drawn("table.arcs", "certificate", "--names", "table.names", "--title", name * 5)
            with self.subTest(count=count, name=name[:20]):
                self.assertLessEqual(int(picture.documentElement.getAttribute("width")), 2_000)

    def test_faults(self):
        crew, certificate, week = EXAMPLES / "crew.arcs", EXAMPLES / "crew.certificate", EXAMPLES / "week_of_vehicles.certificate"
        self.write("empty", "")
        self.convert("a,x,4\n")
        for words, *parts in [
            (["nosuch", certificate], "nosuch"),
            ([crew, "nosuch"], "nosuch"),
            ([crew, "."], "folder"),
            (["empty", certificate], "empty"),
            ([crew, "empty"], "line 1"),
            ([crew, week], "another problem"),
            ([crew, certificate, "--names", "table.names"], "table.names", "another problem"),
        ]:
            with self.subTest(words=words):
                self.assert_fault(self.call("tools/picture", *words), *parts)
