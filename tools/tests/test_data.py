"""Data files from CSV, GeoJSON and OpenStreetMap."""
from __future__ import annotations

import bz2
import csv
import json
import os
import re
import subprocess
import sys
import unittest

from ran import FRAME, TOOLS, XML, InFolder, Ran
from z_order import middle, z_code

SPOT = re.compile(r"\((\d+) (\d+)\)")


class Latlon(InFolder):
    CSV = 'lat,lon,name,pop\n52.52,13.405,"Berlin, Mitte",3500000\n50.08,14.43,Prague,1300000\n-33,151,Sydney,5\n'

    def test_a_csv_becomes_a_data_file(self) -> None:
        ran = Ran("latlon", FRAME, "csv", "lat", "lon", "name", "people=pop", given=self.CSV)
        self.assertEqual(ran.out, 'at,name,people\n(524288 524288),"Berlin, Mitte",3500000\n(539678 467467),Prague,1300000\n')
        self.assertEqual(ran.said, "latlon: 2 places; left out: 1 outside of the frame\n")

    def test_the_statements_that_load_it(self) -> None:
        path = os.path.join(self.folder, "my places.csv")
        ran = Ran("latlon", FRAME, "csv", "lat", "lon", "name", "pop", "-o", path, "--relation", "city", given=self.CSV)
        self.assertEqual(ran.out, f'create city (at point, name text, pop int)\nload city "{path}" header\nindex city.at\n')

    def test_in_z_order_neighbours_stand_together(self) -> None:
        # the corners of a square round the centre, and a text of two lines in the north east; y decides before x
        given = "lat,lon,name\n53,14,\"north\neast\"\n52,12,south west\n53,12,north west\n52,14,south east\n53,14,twin\n"
        ran = Ran("latlon", FRAME, "csv", "lat", "lon", "name", "--z-order", given=given)
        names = [record[1] for record in csv.reader(ran.out.splitlines(keepends=True))]
        self.assertEqual(names, ["name", "south west", "south east", "north west", "north east", "twin"])

    def test_columns_by_number_tabs_and_quotes(self) -> None:
        given = '1\tthe "Alba"\t52.52\t13.405\t12.6\n2\tBrin\t52.53\t13.41\t-0.4\n'
        ran = Ran("latlon", FRAME, "csv", "--tab", "--bare", "3", "4", "name=2", "high=5:int", given=given)
        self.assertEqual(ran.out, 'at,name,high\n(524288 524288),"the ""Alba""",13\n(524359 524521),Brin,0\n')

    def test_texts_are_made_the_programs(self) -> None:
        given = '\ufefflat;lon;name\r\n52;13; a\tb \r\n52;13;"' + 200 * "ä" + '"\r\n'
        ran = Ran("latlon", FRAME, "csv", "lat", "lon", "name", "--delimiter", ";", given=given)
        rows = ran.out.split("\n")
        self.assertEqual(rows[1].split(",")[1], "a b")
        self.assertEqual(rows[2].split(",")[1], 127 * "ä")
        self.assertIn("cut at 255 bytes: 1 texts", ran.said)

    def test_answers_back(self) -> None:
        answers = "ok\n9/4\t1\tA\n4\t2\tB\nend\n"
        self.assertEqual(Ran("latlon", FRAME, "metres", given=answers).out, "ok\n7 m\t1\tA\n10 m\t2\tB\nend\n")
        self.assertEqual(Ran("latlon", "0,0,1", "metres", given="4\t2\n1\t5\tx\n").out, "0.0 m\t2\n0.0 m\t5\tx\n")
        self.assertEqual(Ran("latlon", FRAME, "places", given="1\t(524288 524288)\n").out, "1\t52.520000,13.405000\n")
        made = json.loads(Ran("latlon", FRAME, "geojson", "id", "at", "name",
                              given="ok\n7\t(524288 524288)\t007\n8\t((0 0) (9 0) (0 9))\tB\n9\t(1 1)-(2 2)\tC\n").out)
        self.assertEqual([it["geometry"]["type"] for it in made["features"]], ["Point", "Polygon", "LineString"])
        self.assertEqual(made["features"][0]["properties"], {"id": 7, "name": "007"})
        self.assertEqual(len(made["features"][1]["geometry"]["coordinates"][0]), 4)

    def test_a_frame_without_places_and_exchanged_columns_are_told(self) -> None:
        self.assertEqual(Ran("latlon", "0,0,5", "csv", "lat", "lon", given="lat,lon\n52,13\n").said,
                         "latlon: 0 places; left out: 1 outside of the frame\nlatlon: none lies in the frame; `latlon fit lat lon` finds one\n")
        self.complains("latlon: standard input:2: the latitude 139.7 isn't from -90 to 90; is it the longitude?; --skip leaves such records out",
                       "latlon", FRAME, "csv", "lon", "lat", given="lat,lon\n35.7,139.7\n")

    def test_small_questions(self) -> None:
        self.assertEqual(Ran("latlon", FRAME, "at", "52.52", "13.405").out, "(524288 524288)\n")
        self.assertEqual(Ran("latlon", "-33.9,18.4,40", "at", "-33.9", "18.4").out, "(524288 524288)\n")
        self.assertEqual(Ran("latlon", FRAME, "steps", "600000").out, "125829\n")
        self.assertEqual(Ran("latlon", "fit", "lat", "lon", given="lat,lon\n52,13\n53,14\n").out, "52.5,13.49,57\n")
        for tool in ("latlon", "geojson", "osm", "blocks-svg", "why", "sandsh"):
            ran = Ran(tool, "--help")
            self.assertEqual((ran.status, ran.said), (0, ""))
            self.assertIn(f"  {tool} ", ran.out)

    def test_what_cannot_be_taken_is_said_in_one_line(self) -> None:
        csv = ("latlon", FRAME, "csv", "lat", "lon")
        self.complains("latlon: F/no.csv:1: no such file or directory", *csv, "-i", f"{self.folder}/no.csv")
        self.complains("latlon: F:1: is a directory", *csv, "-i", self.folder)
        self.complains("latlon: standard input:1: it is empty", *csv)
        self.complains("latlon: standard input:1: it has no column 'lon'; it has lat, long", *csv, given="lat,long\n1,2\n")
        bad = "; --skip leaves such records out"
        for given, line, what in (
                ("lat,lon\n1,2\n\n-191,2\n", 4, "the latitude -191 isn't from -90 to 90"), ("lat,lon\n1,181\n", 2, "the longitude 181 isn't from -180 to 180"),
                ("lat,lon\n52\n", 2, "it has 1 fields, and the first line has 2"), ("lat,lon\nx,2\n", 2, "'x' is no latitude in degrees"),
                ('lat,lon,n\n"1\n",2,"a\nb"\n,2,3\n', 5, "the latitude is missing"),
                ("lat,lon,n\n1,\"5,2\",3\n", 2, "'5,2' is no longitude in degrees; a decimal comma is a point here")):
            path = self.file("x.csv", given)
            self.complains(f"latlon: F/x.csv:{line}: {what}{bad}", *csv, "-i", path)
            self.assertEqual(Ran(*csv, "-i", path, "--skip").status, 0)
        latin = "; `iconv -f LATIN1 -t UTF-8` makes it so, if it is LATIN1"
        self.complains("latlon: F/l.csv:3: it isn't UTF-8" + latin, *csv, "-i", self.file("l.csv", b"lat,lon,n\n1,2,a\n1,2,\xe4\n"))
        self.complains("latlon: the frame 1,2: it is three numbers, LAT,LON,KM", "latlon", "1,2", "metres")
        self.complains("latlon: the frame 1,2,x: its parts are numbers, LAT,LON,KM", "latlon", "1,2,x", "metres")
        self.complains("latlon: the frame 99,2,3: its latitude 99 isn't from -90 to 90", "latlon", "99,2,3", "metres")
        self.complains("latlon: F/no/x.csv: no such file or directory", *csv, "-o", f"{self.folder}/no/x.csv", given="lat,lon\n1,2\n")

    def test_a_pipe_that_closes(self) -> None:
        path = self.file("big.csv", "lat,lon\n" + 200_000 * "52,13\n")
        ran = subprocess.run(f"'{sys.executable}' '{TOOLS}/latlon' {FRAME} csv lat lon -i {path} | head -n 1",
                             shell=True, capture_output=True, text=True, timeout=60)
        self.assertEqual(ran.stdout, "at\n")
        self.assertEqual(ran.stderr.split("\n")[-2], "latlon: standard output: its reader has closed it")
        self.assertNotIn("Traceback", ran.stderr)


class Geojson(InFolder):
    def collection(self, *shapes: object) -> str:
        features = [{"type": "Feature", "properties": {"name": f"n{at}", "size": at}, "geometry": shape}
                    for at, shape in enumerate(shapes, 1)]
        return json.dumps({"type": "FeatureCollection", "name": "features", "features": features}, indent=1)

    def test_points_lines_and_areas(self) -> None:
        ring = [[13, 52], [13.1, 52], [13.1, 52.1], [13, 52]]
        given = self.collection(
            {"type": "Point", "coordinates": [13.405, 52.52, 35]}, {"type": "LineString", "coordinates": [[13, 52], [13.1, 52], [13.1, 52], [13.1, 52.1]]},
            {"type": "MultiPolygon", "coordinates": [[ring], [ring, ring]]}, None, {"type": "Point", "coordinates": [-80, 10]},
            {"type": "Polygon", "coordinates": [[[13 + at / 1000, 52 + at * at / 1e6] for at in range(80)]]},
            {"type": "GeometryCollection", "geometries": [{"type": "MultiPoint", "coordinates": [[13, 52], [14, 52]]}]})
        folder = os.path.join(self.folder, "out")
        ran = Ran("geojson", FRAME, folder, "name", "big=size", given=given)
        self.assertEqual(ran.said.replace(self.folder, "F"), """geojson: 3 points, 2 lines, 1 areas
geojson: left out: 1 areas with holes (--fill takes them without), the first feature 3 'n3'
geojson: left out: 1 features without a shape, the first feature 4 'n4'
geojson: left out: 1 points outside of the frame, the first feature 5 'n5'
geojson: left out: 1 areas of more than 64 corners (--thin takes away the flattest), the first feature 6 'n6'
""")
        self.assertIn("create areas (region polygon, feature int, name text, big int)\n", ran.out)
        self.assertEqual(self.read("out", "points.csv").split("\n")[1], "(524288 524288),1,n1,1")
        self.assertEqual(len(self.read("out", "lines.csv").split("\n")), 4)
        ran = Ran("geojson", FRAME, folder, "name", "--thin", "--fill", given=given)
        self.assertIn("3 areas\ngeojson: thinned to 64 corners: 1 areas\n", ran.said)

    def test_in_z_order_neighbours_stand_together(self) -> None:
        corners = [[12, 53], [14, 53], [12, 52], [14, 52]]
        lines = [[[x, y], [x, y + 0.1]] for x, y in corners]
        rings = [[[x, y], [x + 0.1, y], [x, y + 0.1], [x, y]] for x, y in corners]
        given = self.collection({"type": "MultiPoint", "coordinates": corners}, {"type": "MultiLineString", "coordinates": lines},
                                *({"type": "Polygon", "coordinates": [ring]} for ring in rings))
        Ran("geojson", FRAME, self.folder, "--z-order", given=given)
        for layer in ("points", "lines", "areas"):
            codes = [z_code(middle([(int(x), int(y)) for x, y in SPOT.findall(row)])) for row in self.read(f"{layer}.csv").split("\n")[1:-1]]
            self.assertEqual((len(codes), codes), (4, sorted(codes)), layer)
        self.assertEqual([row[-1] for row in self.read("areas.csv").split("\n")[1:-1]], ["5", "6", "3", "4"])
        Ran("geojson", FRAME, self.folder, given=given)
        self.assertEqual([row[-1] for row in self.read("areas.csv").split("\n")[1:-1]], ["3", "4", "5", "6"])

    def test_a_feature_a_line(self) -> None:
        lines = "".join(json.dumps({"type": "Feature", "properties": {}, "geometry": {"type": "Point", "coordinates": [13, 52 + at / 100]}})
                        + "\n" for at in range(5))
        self.assertIn("geojson: 5 points", Ran("geojson", FRAME, self.folder, given=lines).said)

    def test_what_cannot_be_taken_is_said_in_one_line(self) -> None:
        call = ("geojson", FRAME, self.folder)
        self.complains("geojson: F/no:1: no such file or directory", *call, "-i", f"{self.folder}/no")
        self.complains("geojson: standard input:1: it is empty", *call, given="\n")
        self.complains("geojson: standard input:2: it isn't JSON: expecting value", *call, given="{\n nope}".replace("nope", '"a": nope'))
        self.complains("geojson: standard input:1: it isn't GeoJSON: it has no type", *call, given="[]")
        self.complains("geojson: standard input:2: it isn't UTF-8; `iconv -f LATIN1 -t UTF-8` makes it so, if it is LATIN1",
                       *call, given=b'{"type":\n"\xe4"}')
        given = self.collection({"type": "Point", "coordinates": [13, 52]}, {"type": "Point", "coordinates": [389000, 5819000]})
        self.complains("geojson: standard input:19: feature 2: [389000, 5819000] is no longitude and latitude; is the file in another "
                       "projection?; --skip leaves such features out", *call, given=given)
        for shape in ({"type": "Point"}, {"type": "Point", "coordinates": ["a", 1]}, {"type": "Curve", "coordinates": [[1, 2]]}, 5,
                      {"type": "LineString", "coordinates": [[1, 2], 5]}, {"type": "Polygon", "coordinates": [5]}):
            ran = Ran(*call, given=self.collection(shape))
            self.assertEqual((ran.status, ran.said.count("\n")), (1, 1), ran.said)
            self.assertEqual(Ran(*call, "--skip", given=self.collection(shape)).status, 0)
        self.assertIn("geojson: the following arguments are required: folder", Ran("geojson", FRAME).said)


class Osm(InFolder):
    def test_places_roads_and_areas(self) -> None:
        for name, content in (("a.osm", XML.encode()), ("a.osm.bz2", bz2.compress(XML.encode()))):
            ran = Ran("osm", FRAME, self.folder, "-i", self.file(name, content))
            self.assertEqual(ran.said, """osm: 2 places, 2 roads, 1 areas
osm: left out: 1 ways with nodes that aren't in the extract, without these, the first way 11
osm: left out: 1 relations, the first relation 4
""")
            self.assertEqual(self.read("places.csv").split("\n")[1], "(524217 523821),1,cafe,Alba & Co")
            self.assertEqual(self.read("roads.csv").count(",9,residential,Gasse\n"), 2)
            self.assertEqual(self.read("areas.csv").count(",10,park,\n"), 1)

    def test_in_z_order_neighbours_stand_together(self) -> None:
        # a road from the north to the south: its southern piece comes first
        road = '<nd ref="1"/><nd ref="2"/><nd ref="3"/><tag k="highway"'
        given = XML.replace(road, '<nd ref="3"/><nd ref="2"/><nd ref="1"/><tag k="highway"')
        rows = []
        for words in ((), ("--z-order",)):
            Ran("osm", FRAME, self.folder, *words, given=given)
            rows.append(self.read("roads.csv").split("\n")[1:3])
        self.assertEqual(rows[1], rows[0][::-1])

    def test_what_cannot_be_taken_is_said_in_one_line(self) -> None:
        call = ("osm", FRAME, self.folder)
        self.complains("osm: F/no:1: no such file or directory", *call, "-i", f"{self.folder}/no")
        self.complains("osm: standard input:1: it is empty", *call)
        self.complains("osm: standard input:1: it is no extract of OpenStreetMap: it begins with <gpx> and not with <osm>", *call, given="<gpx/>")
        self.complains("osm: standard input:4: it isn't XML: unclosed token", *call, given=XML[:190])
        self.complains("osm: standard input:4: the place 95 13.4 isn't of the Earth", *call, given=XML.replace("52.51", "95"))
        self.complains("osm: standard input:3: it isn't XML: not well-formed (invalid token)", *call, given=XML.encode().replace(b"Alba", b"\xe4"))
        self.complains("osm: standard input:1: it is a .pbf; `osmium cat FILE -o FILE.osm` makes XML of it", *call, given=b"\0\0\0\r\n\tOSMHeader\x18")
        cut = bz2.compress(XML.encode())[:200]
        self.assertEqual((Ran(*call, given=cut).status, Ran(*call, given=cut).said.count("\n")), (1, 1))


if __name__ == "__main__":
    unittest.main()
