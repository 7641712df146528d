"""Fifty tables with a fault: each is refused in one sentence with the file, the line and the column where there is one, and a way out."""
import argparse

from calls import ToolTest
from sigdorf_tools.conversion import add_options, read_problem
from sigdorf_tools.faults import Fault

# The table, the words, the place, and the way out.
FAULTS = [
    ("", "", "", "put person, object and cost into three columns"),
    (",,\n,,\n", "", "", "put person, object and cost into three columns"),
    ("hello\nworld\n", "", ", line 1", "save the table as"),
    ("<?xml version='1.0'?>\n<a/>\n", "", ", line 1", "save the table as"),
    ("a,x,1\nb,y\n", "", ", line 2, column 3", "fill it up"),
    ("a,x,1\nb,y,2,3\n", "", ", line 2, column 4", "into double quotes"),
    (",x,y\na,1\nb,1,2\n", "", ", line 2, column 3", "fill it up"),
    (",x,x\na,1,2\n", "", ", line 1, column 3", "give each one a name of its own"),
    (",x,y\na,1,2\na,3,4\n", "", ", line 3, column 1", "give each one a name of its own"),
    (",x,\na,1,2\n", "", ", line 1, column 3", "write one, or leave out"),
    (",x,y\n,1,2\n", "", ", line 2, column 1", "write one, or leave out"),
    ("Plan of Monday,,for,\nAda,1,2,3\nBen,1,2,3\n", "", ", line 1, column 2", "leave out what is no part of the table, as by --range"),
    ("x,y,z\na,1,2,3\nb,4,5,6\n", "", ", line 1, column 4", "fill it up"),
    ("a,,3\nb,y,2\n", "--pairs", ", line 1, column 2", "write one, or leave out"),
    ("a,x,\nb,y,2\n", "", ", line 1, column 3", "write a title or a cost into it"),
    ("a,x,\nb,y,2\n", "--pairs", ", line 1, column 3", "write a title or a cost into it"),
    ("who,what,\na,x,1\nb,y,2\n", "", ", line 1, column 3", "write a title or a cost into it"),
    ("a,x,\nb,y,\n", "--pairs --no-header", ", line 1, column 3", "write one for each pair that is allowed"),
    ("a,x,1\na,x,\n", "--pairs", ", line 2, column 3", "leave out the row that is wrong"),
    ("a,x,4 min\nb,y,2\n", "", ", line 1, column 3", "write digits alone"),
    (",x,y\na,4km,2\n", "", ", line 2, column 2", "leave the cell empty"),
    ("a,x,$5\nb,y,\u20ac1\n", "", ", line 2, column 3", "write all costs in one unit"),
    ("a,x,5%\nb,y,1\n", "", ", line 2, column 3", "write all of them alike"),
    ("a,x,1:30\nb,y,40\n", "", ", line 2, column 3", "write all of them alike"),
    ("a,x,40\nb,y,1:75\n", "", ", line 1, column 3", "such as `1:75`"),
    ("a,x,1:30\nb,y,1:75\n", "", ", line 2, column 3", "go from 00 to 59"),
    ("a,x,1:30\nb,y,1:30:00\n", "", ", line 2, column 3", "write all times with seconds, or none"),
    ("a,x,1:30\nb,y,1:40\n", "--decimals 2", "", "leave it out"),
    ("a,x,#N/A\nb,y,1\n", "", ", line 1, column 3", "say --gap '#N/A' if"),
    ("a,x,inf\nb,y,1\n", "", ", line 1, column 3", "say --gap inf if"),
    ("a,x,1\nb,y,1e3x\n", "", ", line 2, column 3", "write digits alone"),
    ("a,x,1\nb,y,few\n", "", ", line 2, column 3", "say --gap few if"),
    ("a,x,1\nb,y,--\n", "", ", line 2, column 3", "say --gap=-- if"),
    ("a,x,1\nb,y,4 km\n", "", ", line 2, column 3", "leave out the row of a pair"),
    ("a,x,1\nb,y,2026-11-26\n", "", ", line 2, column 3", "write digits alone"),
    ("a,x,1\na,x,2\n", "", ", line 2, column 3", "leave out the row that is wrong"),
    ("a;x;1.250\nb;y;2\n", "", ", line 1, column 3", "say --decimal-mark point or --decimal-mark comma"),
    ("a;x;1,5\nb;y;1.5\n", "", ", line 2, column 3", "say --decimal-mark point"),
    ("a,x,1.23\nb,y,2\n", "--decimals 1", ", line 1, column 3", "--decimals 2 keeps them"),
    ("a,x,10000000000\nb,y,2\n", "", ", line 1, column 3", "count in greater units"),
    ("a,x,0.1234567890123\nb,y,2\n", "", ", line 1, column 3", "does it"),
    ("12,2\n1,3\n", "", ", line 1", "--matrix --no-header where the table is costs alone"),
    ("1,2,3\n4,5,6\n", "", ", line 1", "--pairs where each row is a person"),
    ("who,what,room,min\na,x,12,3\nb,y,13,4\n", "", ", line 2, column 2", "say --columns"),
    ("who,what,room,min\na,x,12,3\nb,y,13,4\n", "--pairs", ", line 1, column 4", "say --columns"),
    ("who,x,y,note\na,1,2,ill\nb,3,4,\n", "", ", line 2, column 4", "--ignore-column"),
    ('a,"x,1\nb,y,2\n', "", ", line 1, column 2", "write a quote inside a cell twice"),
    (b"a,x\x81,1\n", "", ", line 1, byte 4 of the line", "say --encoding"),
    (b"\xc3\xa4,x\xff,1\n", "", ", line 1, byte 5 of the line", "say --encoding"),
    ("a,x,1\n".encode("utf-16") + b"\xd8", "", ", line 2", "save the table as CSV in UTF-8"),
    ("a,x\x07,1\nb,y,2\n", "", ", line 1, column 2", "take it out"),
    (b"\xd0\xcf\x11\xe0\xa1\xb1\x1a\xe1abc", "", "", "save it as .xlsx"),
    (b"PK\x03\x04abc", "", "", "save it anew"),
    ("sep=|\na|x|1\n", "", ", line 1, column 1", "part the columns by one of these"),
    (",x,y\n", "", ", line 1", "put a row for each person below"),
    ("who,what,cost\n", "", ", line 1, column 3", "put the pairs below the titles"),
    ("\tx", "--ignore-column x", ", line 1", "put a column for each object"),
    ("who,x\na,1\n", "--matrix --ignore-column x", ", line 1", "put a column for each object"),
    ("who,what,cost\na,x\nb,y,2\n", "--columns who,what,cost", ", line 2, column 3", "fill it up"),
    ("who,what,x\na,b,1\nc,d,2\n", "--pairs --ignore-column x", ", line 1, column 3", "fill it up"),
    (f",{'x' * 500},{'x' * 500}\na,1,2\n", "", ", line 1, column 3", f"the name `{'x' * 37}..` is there twice"),
    ("who,what,cost\na,x,3\n", "--columns who,what,price", ", line 1", "say one of `who`, `what`, `cost`"),
    ("a,x,1\n", "--sheet Plan", "", "leave it out"),
    ("a,x,1\nb,y,2\n", "--range D1:E9", "", "put person, object and cost into three columns"),
]


class Faults(ToolTest):
    def test_faults(self):
        parser = argparse.ArgumentParser()
        add_options(parser)
        self.assertGreaterEqual(len(FAULTS), 40)
        for content, words, place, way_out in FAULTS:
            with self.subTest(content=content, words=words):
                table = self.write("table.csv", content)
                with self.assertRaises(Fault) as caught:
                    read_problem(parser.parse_args([str(table), *words.split()]))
                sentence = str(caught.exception)
                self.assertTrue(sentence.startswith(f"{table}{place}: "), sentence)
                self.assertIn(way_out, sentence)
                self.assertNotIn("\n", sentence)
