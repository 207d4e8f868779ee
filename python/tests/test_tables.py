"""Spreadsheets: what each program writes is read, further columns are kept, the rest is refused where it stands."""

from __future__ import annotations

import os
import tempfile
import unittest
from typing import Dict, Tuple, Union

from jambulskeg.places import (
    METRES, BadTable, DayTables, Measure, Place, Roads, TableSource, Van, model_from_csv, model_of_day, read_day,
    read_places,
)
from jambulskeg.tables import Heads, Table, TableLine, finite, read_table, whole

Text = Union[str, bytes]

WRITERS: Dict[str, Tuple[Text, Text]] = {
    # 'CSV UTF-8' with the regional settings of Germany: a mark, semicolons, decimal commas, CR LF, times as 08:30.
    "Excel in Europe, CSV UTF-8": (
        "\ufeffName;X;Y;Demand;Open;Close;Service;Phone\r\nYard;0;0;;;;;\r\nJörg;3,5;-4;2;08:30;10:00;10;0123\r\n"
        ";;;;;;;\r\n",
        "\ufeffName;Start;Capacity;From;To\r\nred;Yard;15;08:00;16:00\r\n",
    ),
    # The plain 'CSV' there: Windows-1252 in place of UTF-8, and no mark.
    "Excel in Europe, CSV": (
        "Name;X;Y;Demand;Open;Close;Service;Phone\r\nYard;0;0;;;;;\r\nJörg;3,5;-4;2;08:30;10:00;10;0123\r\n"
        .encode("cp1252"),
        b"Name;Start;Capacity;From;To\r\nred;Yard;15;08:00;16:00\r\n",
    ),
    # 'CSV UTF-8' with American settings: commas, 9:00 AM, empty rows down to the last one that was ever used.
    "Excel in America, CSV UTF-8": (
        "\ufeffName ,X,Y,Demand,Open,Close,Service, Phone\r\nYard,0,0,,,,,\r\n"
        "Jörg,3.5,-4,2,8:30 AM,10:00 AM,10,0123\r\n,,,,,,,\r\n,,,,,,,\r\n",
        "\ufeffname,start,capacity,from,to\r\nred,Yard,15,8:00:00 AM,4:00:00 PM\r\n",
    ),
    # 'Unicode Text': UTF-16 with a mark, tabs.
    "Excel, Unicode Text": (
        "Name\tX\tY\tDemand\tOpen\tClose\tService\tPhone\r\nYard\t0\t0\t\t\t\t\t\r\n"
        "Jörg\t3,5\t-4\t2\t8:30\t10:00\t10\t0123\r\n".encode("utf-16"),
        "Name\tStart\tCapacity\tFrom\tTo\r\nred\tYard\t15\t8:00\t16:00\r\n".encode("utf-16"),
    ),
    # A first line that tells Excel what parts the cells.
    "sep=": (
        "sep=;\r\nname;x;y;demand;open;close;service;phone\r\nYard;0;0;;;;;\r\n"
        "Jörg;3.5;-4;2;8:30;10:00;10;0123\r\n",
        "SEP=,\nname,start,capacity,from,to\nred,Yard,15,8:00,16:00\n",
    ),
    # LibreOffice: UTF-8 without a mark, LF, 'quote all text cells', times as 08:30:00.
    "LibreOffice": (
        '"Name","X","Y","Demand","Open","Close","Service","Phone"\n"Yard",0,0,,,,,\n'
        '"Jörg",3.5,-4,2,08:30:00,10:00:00,10,"0123"\n',
        '"name","start","capacity","from","to"\n"red","Yard",15,08:00:00,16:00:00\n',
    ),
    # pandas: the index in a first column without a heading, columns with gaps as floats, times as timedeltas.
    "pandas": (
        ",name,x,y,demand,open,close,service,phone\n0,Yard,0.0,0.0,,,,,\n"
        "1,Jörg,3.5,-4.0,2.0,0 days 08:30:00,0 days 10:00:00,10.0,0123\n",
        "name,start,capacity,from,to\nred,Yard,15.0,0 days 08:00:00,0 days 16:00:00\n",
    ),
}
"""The same day as each program writes it, and by which rules."""
PLACES = (Place("Yard", 0, 0), Place("Jörg", 3.5, -4, 2, (510, 600), 10))
VANS = (Van("red", "Yard", "Yard", 15, 0, (480, 960)),)
YARD = "name,x,y\nyard,0,0\n"
RED = "start\nyard\n"


def as_bytes(text: Text) -> bytes:
    return text.encode("utf-8") if isinstance(text, str) else text


def day(places: Text, vans: Text = RED) -> DayTables:
    """The day of two files that were handed in."""
    sources: Tuple[TableSource, TableSource] = (("places.csv", as_bytes(places)), ("vans.csv", as_bytes(vans)))
    return read_day(*sources)


class WriterTests(unittest.TestCase):
    def test_what_programs_write(self) -> None:
        for writer, (places, vans) in WRITERS.items():
            found = day(places, vans)
            self.assertEqual((found.places, found.vans, found.degrees), (PLACES, VANS, False), writer)
            phones = [dict(cells).get("Phone", dict(cells).get("phone")) for cells in found.further]
            self.assertEqual(phones, ["", "0123"], writer)
            is_plain = writer == "Excel in Europe, CSV"
            self.assertEqual(len(found.doubts), int(is_plain), (writer, found.doubts))
        self.assertEqual(day(*WRITERS["pandas"]).further[1], {"column 1": "1", "phone": "0123"})
        self.assertEqual(day(*WRITERS["Excel in Europe, CSV"]).doubts, (
            "places.csv, line 3: this is no text in UTF-8; save the file as 'CSV UTF-8' if "
            "'Jörg;3,5;-4;2;08:30;10:00;10;0123' has wrong letters (it was read as Windows-1252)",
        ))

    def test_paths_and_bytes(self) -> None:
        with tempfile.TemporaryDirectory() as folder:
            paths = [os.path.join(folder, name) for name in ("p.csv", "v.csv")]
            for path, text in zip(paths, WRITERS["LibreOffice"]):
                with open(path, "wb") as file:
                    file.write(as_bytes(text))
            self.assertEqual(read_day(paths[0], paths[1]), day(*WRITERS["LibreOffice"]))
            self.assertEqual(model_from_csv(paths[0], paths[1]), model_of_day(read_day(paths[0], paths[1])))
            self.assertEqual(read_places(paths[0]), list(PLACES))
            with self.assertRaises(OSError):
                read_day(os.path.join(folder, "none.csv"), paths[1])

    def test_times_and_numbers(self) -> None:
        for text, number in (
            ("9:00 AM", 540), ("12:00 am", 0), ("12:30 PM", 750), ("1:05 p.m.", 785), ("09:00:00\u202fAM", 540),
            ("26:00", 1560), ("60.00", 60), ("1 days 02:00:00", 1560), ("2.0", 2), ("2.", 2), ("+3", 3), ("-3.0", -3),
        ):
            self.assertEqual(whole(text), number, text)
        for text in ("13:00 PM", "0:30 AM", "9:00:30", "2.5", "1e3", "1_000", "", "٣", "9 AM", "8.30 AM"):
            self.assertRaises(ValueError, whole, text)
        self.assertEqual([finite(text) for text in ("1.5", "-.5", "2e3", "+4.")], [1.5, -0.5, 2000, 4])
        for text in ("nan", "inf", "1_0.5", "1e999", "0x1", " 1"):
            self.assertRaises(ValueError, finite, text)

    def test_further_columns_come_in_order(self) -> None:
        found = day("note,name,x,y,Phone,phone,Phone\n;a,yard,0,0,1,2,3\n", "colour,start\nblue,yard\n")
        self.assertEqual(list(found.further[0].items()), [("note", ";a"), ("Phone", "1"), ("phone", "2"),
                                                          ("Phone (2)", "3")])
        self.assertEqual(found.van_further, ({"colour": "blue"},))
        self.assertEqual(found.doubts, ())

    def test_a_cell_of_several_lines(self) -> None:
        found = day('name,x,y,note\nyard,0,0,"one\ntwo, three"\n\nAda,1,1,""\n')
        self.assertEqual([cells["note"] for cells in found.further], ["one\ntwo, three", ""])
        self.bad("places.csv, line 5, column 'x': 'east' is no number",
                 'name,x,y,note\nyard,0,0,"one\ntwo"\n\nAda,east,1,\n')

    def bad(self, sentence: str, places: Text, vans: Text = RED) -> None:
        with self.assertRaises(BadTable) as caught:
            day(places, vans)
        self.assertTrue(str(caught.exception).startswith(sentence), str(caught.exception))

    def test_what_is_refused(self) -> None:
        cases: Tuple[Tuple[str, Text, Text], ...] = (
            ("places.csv, line 1: the file is empty", "", RED),
            ("places.csv, line 1: the file is empty", "\ufeff\r\n,,,\r\n", RED),
            ("places.csv, line 1: there are no places below", "name,x,y\n,,\n", RED),
            ("vans.csv, line 1: there are no vehicles below", YARD, "start\n"),
            ("places.csv, line 1, column 'y': there is no such column; there are name, x", "name,x\na,1\n", RED),
            ("vans.csv, line 1, column 'start': there is no such column", YARD, "name\nred\n"),
            ("vans.csv, line 2, column 'start': no place has the name 'Yard'; is 'yard' meant?", YARD, "start\nYard\n"),
            ("vans.csv, line 3, column 'end': no place has the name 'b'", YARD, "start,end\nyard,\nyard,b\n"),
            ("places.csv, line 3, column 'name': 'yard' is in an earlier line too, line 2", YARD + "yard,1,1\n", RED),
            ("places.csv, line 1: this is a spreadsheet's own file", b"PK\x03\x04..", RED),
            ("places.csv, line 2: this is no text in UTF-8", b"name,x,y\na\x00,1,1\n", RED),
            ("places.csv, line 2: this is no text in UTF-8", b"name,x,y\n\x81\xff,1,1\n", RED),
            ("places.csv, line 1: this is no text in UTF-8", "name".encode("utf-16") + b"\x00", RED),
            ("places.csv, line 2: the quotes of this line are faulty", 'name,x,y\n"yard,0,0\nb,1,1\n', RED),
            ("places.csv, line 2, column 'y': the line has more cells", "name,x,y\na,1,1,7\n", RED),
            ("vans.csv, line 2, column 'from': '8:00:30' is neither a whole number nor a time like 8:30 or 9:00 AM",
             YARD, "start,from,to\nyard,8:00:30,9:00\n"),
            ("vans.csv, line 2, column 'to': 2:00 is before 22:00; two at night is written 26:00",
             YARD, "start,from,to\nyard,22:00,2:00\n"),
            ("vans.csv, line 2, column 'to': the cell is empty, and that of 'from' is not",
             YARD, "start,from,to\nyard,8:00,\n"),
            ("vans.csv, line 2, column 'from': '0.354166667' is neither a whole number nor a time like 8:30 or 9:00 AM;"
             " a spreadsheet keeps times", YARD, "start,from,to\nyard,0.354166667,9:00\n"),
            ("vans.csv, line 2, column 'to': '9.30' may be a time or a number: write 9:30, or 9",
             YARD, "start,from,to\nyard,8:00,9.30\n"),
            ("places.csv, line 2, column 'x': '3,5' is no number; where commas part the cells, a number has a point",
             'name,x,y\na,"3,5",1\n', RED),
            ("vans.csv, line 2, column 'capacity': -1 is below 0", YARD, "start,capacity\nyard,-1\n"),
            ("places.csv, line 2, column 'x': '1e300' is beyond 1e+08", "name,x,y\nyard,1e300,0\n", RED),
            ("places.csv, line 2, column 'lat': '91' is beyond 90", "name,lat,lon\nyard,91,0\n", RED),
            ("places.csv, line 1002: there may be 1000 places",
             "name,x,y\n" + "".join(f"{at},1,1\n" for at in range(1001)), RED),
            ("vans.csv, line 102: there may be 100 vehicles", YARD, "start\n" + "yard\n" * 101),
        )
        for sentence, places, vans in cases:
            with self.subTest(sentence):
                self.bad(sentence, places, vans)

    def test_no_text_makes_another_exception(self) -> None:
        texts = (
            "\x00", '"', "sep=", "sep=;", ",", "name", "name,x,y\r", "name,x,y\n\"a\"b,1,2", "name;x;y\n1;2;3;4",
        )
        for text in texts:
            for data in (as_bytes(text), text.encode("utf-16"), b"\xff\xfe" + as_bytes(text)):
                with self.assertRaises(BadTable):
                    read_day(("p", data), ("v", data))


class DoubtTests(unittest.TestCase):
    def doubted(self, sentences: "list[str]", places: Text, vans: Text = RED) -> DayTables:
        found = day(places, vans)
        self.assertEqual(len(found.doubts), len(sentences), found.doubts)
        for doubt, sentence in zip(found.doubts, sentences):
            self.assertIn(sentence, doubt)
        return found

    def test_columns(self) -> None:
        found = self.doubted(
            ["line 1, column 'Demand': the heading is there twice; the first such column is taken"],
            "name,x,y,demand,Demand\nyard,0,0,,\nAda,3,4,1,2\n",
        )
        self.assertEqual((found.places[1].demand, found.further[1]), (1, {"Demand": "2"}))
        self.doubted(["column 'Servce': this column is not read; is 'service' meant?"],
                     "name,x,y,Servce\nyard,0,0,\nAda,3,4,10\n")
        self.doubted([], "name,x,y,remark,type\nyard,0,0,,\nAda,3,4,10,\n")

    def test_a_second_yard(self) -> None:
        self.doubted(["line 3, column 'name': no vehicle starts or ends at 'Depot2'"],
                     YARD + "Depot2,5,5\nAda,3,4\nBen,4,4\n")
        self.doubted(["line 5, column 'name': no vehicle starts or ends at 'East'"],
                     "name,x,y,demand\nyard,0,0,\nAda,3,4,1\nBen,4,4,1\nEast,9,9,\n")
        self.doubted([], YARD + "Garageland,3,4\nYardley,4,4\n")

    def test_cells_of_a_yard(self) -> None:
        self.doubted(["line 2, column 'open': vehicles start or end at 'yard', so this is not used; write 'from'"],
                     "name,x,y,open,close\nyard,0,0,8:00,16:00\nAda,3,4,,\n")
        self.doubted(["column 'penalty': vehicles start or end at 'yard', so this is not used"],
                     "name,x,y,penalty\nyard,0,0,5\nAda,3,4,\n")

    def test_coordinates(self) -> None:
        self.doubted(["line 2, column 'x': all distances of 'x' and 'y' are 0"], "name,x,y\nyard,1,1\nAda,1.2,1.1\n")
        self.doubted(["line 2, column 'lon': all distances of 'lon' and 'lat' are 0"],
                     "name,lat,lon\nyard,1,1\nAda,1,1\n")
        self.doubted(["column 'x': x and y look like degrees; call the columns 'lon' and 'lat'"],
                     "name,x,y\nyard,8.5417,47.3769\nAda,8.5391,47.3686\n")
        self.doubted([], "name,x,y\nyard,8.5,47.3\nAda,9.5,47.4\n")
        found = self.doubted(["column 'x': lat and lon are there too, so x and y are not read"],
                             "name,x,y,lat,lon\nyard,7,7,0,0\nAda,8,8,0,1\n")
        self.assertEqual((found.places[1].x, found.further[1]), (1.0, {"x": "8", "y": "8"}))

    def test_names_of_vehicles(self) -> None:
        self.doubted(["vans.csv, line 3, column 'name': an earlier vehicle is called 'red' too"], YARD,
                     "name,start\nred,yard\nred,yard\n")


class DegreeTests(unittest.TestCase):
    def test_great_circles(self) -> None:
        found = day("name,Latitude,Longitude\nyard,0,0\nAda,0,1\n", "start,from,to\nyard,8:00,16:00\n")
        self.assertTrue(found.degrees)
        self.assertEqual(METRES.measure, Measure.GREAT_CIRCLE)
        model = model_of_day(found)
        self.assertEqual((model.matrices[0][0][1], model.matrices[1][0][1]), (111195, 167))
        self.assertEqual(model_of_day(found, Roads(scale=0.001)).matrices[0][0][1], 111)

    def test_only_one_of_both(self) -> None:
        table = read_table(("p.csv", b"name,lat,x,y\na,5,1,2\n"), ("name", "x", "y", "lat"), {})
        heads = Heads("p.csv", 1, {"name": 0, "x": 2, "y": 3}, {"lat": 1})
        line = TableLine(heads, 2, ["a", "5", "1", "2"])
        self.assertEqual(table.without("lat"), Table(heads, (line,), ()))
        self.assertEqual((line.further, line.has("x"), line.has("lat")), ({"lat": "5"}, True, False))
        self.assertEqual(day("name,lat,x,y\nyard,5,1,2\n").further, ({"lat": "5"},))


if __name__ == "__main__":
    unittest.main()
