#!/usr/bin/env python3
"""Tests of what cases are written in: designs, by bytes that stand here in hexadecimal digits, changes of rules, and metal.

usage: test_designs.py
"""
import unittest

from designs import design, real
from test_cases import changed, report_of

HEAD = (
    "0006 0002 0258"
    "001c 0102 000000000000000000000000 000000000000000000000000"
    "0008 0206 4c494200"
    "0014 0305 4110000000000000 4110000000000000"
)
TOP = "001c 0502 000000000000000000000000 000000000000000000000000  0008 0606 544f5000"
SHAPE = "0006 0d02 0007  0006 0e02 0000"
ENDEL, ENDSTR, ENDLIB = "0004 1100", "0004 0700", "0004 0400"


class Designs(unittest.TestCase):
    """Texts and their bytes."""

    def assert_bytes(self, text: str, *pieces: str) -> None:
        self.assertEqual(design(text).hex(), "".join("".join(pieces).split()))

    def assert_element(self, text: str, *pieces: str) -> None:
        self.assert_bytes(f"cell TOP\n{text}\n", HEAD, TOP, *pieces, ENDSTR, ENDLIB)

    def test_libraries(self) -> None:
        self.assert_bytes("", HEAD, ENDLIB)
        self.assert_bytes("cell TOP\n", HEAD, TOP, ENDSTR, ENDLIB)
        self.assert_bytes("# a fill\nlibrary FILL\n", HEAD.replace("4c494200", "46494c4c"), ENDLIB)
        self.assert_bytes("cell TOP\ncell TOP\n", HEAD, TOP, ENDSTR, TOP, ENDSTR, ENDLIB)

    def test_boundaries(self) -> None:
        corners = "00000000 00000000  00000000 00000009  00000009 fffffffe"
        closed = f"0024 1003 {corners} 00000000 00000000"
        self.assert_element("BOUNDARY 7/0 0,0 0,9 9,-2", "0004 0800", SHAPE, closed, ENDEL)
        self.assert_element("BOUNDARY 7/0 open 0,0 0,9 9,-2", "0004 0800", SHAPE, f"001c 1003 {corners}", ENDEL)

    def test_paths(self) -> None:
        line = "0014 1003 00000000 00000000 0000000a 00000000"
        self.assert_element("PATH 7/0 0,0 10,0", "0004 0900", SHAPE, line, ENDEL)
        ends = "0006 2102 0004  0008 0f03 fffffffc  0008 3003 00000001  0008 3103 00000003"
        self.assert_element("PATH 7/0 type 4 width -4 begin 1 end 3 0,0 10,0", "0004 0900", SHAPE, ends, line, ENDEL)

    def test_references(self) -> None:
        name, origin = "0006 1206 4142", "000c 1003 00000005 00000006"
        self.assert_element("SREF AB 5,6", "0004 0a00", name, origin, ENDEL)
        turn = "0006 1a01 8000  000c 1c05 425a000000000000"
        self.assert_element("SREF AB 5,6 reflected turned 90", "0004 0a00", name, turn, origin, ENDEL)
        large = "0006 1a01 0002  000c 1b05 4120000000000000"
        self.assert_element("SREF AB 5,6 flags 0002 magnified 2", "0004 0a00", name, large, origin, ENDEL)

    def test_arrays(self) -> None:
        ends = "001c 1003 00000000 00000000  0000001e 00000000  00000000 00000028"
        name = "0006 1206 4142"
        self.assert_element("AREF AB 3x2 0,0 30,0 0,40", "0004 0b00", name, "0008 1302 0003 0002", ends, ENDEL)
        self.assert_element("AREF AB 32768x65535 0,0 30,0 0,40", "0004 0b00", name, "0008 1302 8000 ffff", ends, ENDEL)

    def test_records(self) -> None:
        self.assert_bytes("records\n")
        self.assert_bytes("records\nHEADER 600\nhex 00 05 ff\n", "0006 0002 0258  0005 ff")
        self.assert_bytes("records\nSTRNAME TOP\\x00\\x00\\x00\nSTRING a b\n", "000a 0606 544f50000000  0008 1906 61206200")
        self.assert_bytes("records\nBGNSTR\nSTRANS 8000\nCOLROW 2 65535\n", TOP[:59], "0006 1a01 8000  0008 1302 0002 ffff")
        self.assert_bytes("records\nBOUNDARY\nXY 9,-1\nPLEX 1\n", "0004 0800  000c 1003 00000009 ffffffff  0008 2f03 00000001")

    def test_ends(self) -> None:
        self.assert_bytes("cell TOP\nend\nhex 00 00\n", HEAD, TOP, ENDSTR, ENDLIB, "0000")
        self.assert_bytes("cell TOP\ncut 7\n", "0006 0002 0258 00")

    def test_repeats(self) -> None:
        self.assert_bytes(
            "records\nrepeat 2\nLAYER {n}\nDATATYPE {10*n+3}\nagain\n", *(f"00060d02{n:04x}00060e02{10 * n + 3:04x}" for n in (0, 1))
        )
        self.assert_bytes(
            "records\nXY 5,5 [2:{n},{2*n-1} ]7,7\n", "0024 1003 0000000500000005 00000000ffffffff 0000000100000001 0000000700000007"
        )
        self.assert_bytes("records\nSTRNAME [4:N]\n", "0008 0606 4e4e4e4e")

    def test_reals(self) -> None:
        for value, wanted in (0, "00" * 8), (1, "4110"), (45, "422d"), (180, "42b4"), (270, "4310e0"), (450, "431c20"), (-90, "c25a"):
            self.assertEqual(real(value).hex(), wanted.ljust(16, "0"))


class Cases(unittest.TestCase):
    """Rules and reports of cases."""

    def test_changes_of_rules(self) -> None:
        self.assertEqual(changed([b"min,1", b"max,2"], ["max,3", "padding,zero"]), [b"min,1", b"max,3", b"padding,zero"])
        self.assertEqual(changed([b"min,1", b"max,2"], ["-min"]), [b"max,2"])
        self.assertEqual(changed([b"min,1", b"max,2"], ["2: ", "1: min\\n\\xff"]), [b"min\n\xff", b""])

    def test_reports_of_metal(self) -> None:
        windows = {
            "win_x": "0",
            "win_y": "-1",
            "win_step_x": "2",
            "win_step_y": "3",
            "win_w": "3",
            "win_h": "2",
            "win_nx": "2",
            "win_ny": "2",
        }
        report = report_of(windows | {"min": "166666", "max": "500000"}, ["1,0 3,1", "4,2 9,9"])
        lines = "0,0,0,-1,3,1,2,0,2,333333,OK", "1,0,2,-1,5,1,1,0,1,166666,OK", "0,1,0,2,3,4,0,0,0,0,LOW", "1,1,2,2,5,4,2,0,2,333333,OK"
        self.assertEqual(report.decode().splitlines(), list(lines))
        self.assertEqual(report_of(windows | {"min": "0", "max": "166666", "win_ny": "1"}, ["2,0 3,1"]).count(b"166666,HIGH"), 2)


if __name__ == "__main__":
    unittest.main()
