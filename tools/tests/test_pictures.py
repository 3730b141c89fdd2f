"""Answers as pictures, and what all tools do at the ends of their pipes and in time."""
from __future__ import annotations

import random
import resource
import subprocess
import sys
import unittest

from ran import FRAME, PROGRAM, TOOLS, XML, InFolder, Ran


class BlocksSvg(InFolder):
    ANSWERS = ("ok\n1\t0\t0\t1 2\n1\t524288\t0\t-\n1\t0\t524288\t2\n1\t524288\t524288\t-\n1\t(5 5)\tA <b>\n2\t(9 524288)-(20 524288)\tB\n"
               "25\t1\t(5 5)\tA <b>\n")

    def test_leaves_shapes_and_visited_blocks(self) -> None:
        ran = Ran("blocks-svg", "--goal", "(0 0)", given=self.ANSWERS)
        self.assertEqual((ran.status, ran.said), (0, "blocks-svg: 4 leaves, 3 shapes\n"))
        self.assertIn("4 leaves; the 1 nearest visit 2 blocks (their leaves are yellow)</text>", ran.out)
        self.assertEqual(ran.out.count('class="visited"'), 1)
        self.assertIn('aria-label="4 leaves; the 1 nearest', ran.out)
        self.assertEqual(Ran("blocks-svg", "--fit", given="1\t(5 5)\n").status, 0)

    def test_what_cannot_be_taken_is_said_in_one_line(self) -> None:
        self.complains("blocks-svg: F/no:1: no such file or directory", "blocks-svg", "-i", f"{self.folder}/no")
        self.complains("blocks-svg: standard input:1: it is empty", "blocks-svg")
        self.complains("blocks-svg: standard input:1: no line of it is a leaf of `blocks` or a row with a shape", "blocks-svg", given="ok\n")
        self.complains("blocks-svg: standard input:2: it is no leaf: a level is from 0 to 20, a corner from 0 to 1048575",
                       "blocks-svg", given="ok\n21\t0\t0\t-\n")
        self.complains("blocks-svg: standard input:1: a coordinate is from 0 to 1048575", "blocks-svg", given="1\t(1048576 1)\n")
        self.complains('blocks-svg: the goal 5 is no point "(X Y)"', "blocks-svg", "--goal", "5", given=self.ANSWERS)


class Pipes(InFolder):
    def test_a_reader_that_is_gone_is_told_in_one_line(self) -> None:
        point = '{"type": "Point", "coordinates": [13.4, 52.5]}'
        calls: list[tuple[list[str], str]] = [
            (["latlon", FRAME, "csv", "lat", "lon"], "lat,lon\n52,13\n"), (["latlon", FRAME, "metres"], "4\t1\n"),
            (["latlon", FRAME, "geojson"], "1\t(5 5)\n"), (["geojson", FRAME, self.folder], point), (["osm", FRAME, self.folder], XML),
            (["blocks-svg"], BlocksSvg.ANSWERS)]
        if PROGRAM:
            calls += [(["why"], "create a (b int)\n"), (["sandsh"], "create a (b int)\n")]
        for words, given in calls:
            ran = subprocess.Popen([sys.executable, str(TOOLS / words[0]), *words[1:]], stdin=subprocess.PIPE, stdout=subprocess.PIPE,
                                   stderr=subprocess.PIPE, text=True)
            assert ran.stdin and ran.stdout and ran.stderr
            ran.stdout.close()
            ran.stdin.write(given)
            ran.stdin.close()
            said = ran.stderr.read()
            ran.stderr.close()
            self.assertEqual((ran.wait(60), said), (1, f"{words[0]}: standard output: its reader has closed it\n"), words)


class Speed(InFolder):
    def test_a_hundred_thousand_places_take_seconds(self) -> None:
        draw = random.Random(4)
        places = [(draw.uniform(-90, 90), draw.uniform(-180, 180), f"place {at}") for at in range(100_000)]
        csv = "lat,lon,name\n" + "".join(f"{lat:.6f},{lon:.6f},{name}\n" for lat, lon, name in places)
        feature = '{"type": "Feature", "properties": {"name": "%s"}, "geometry": {"type": "Point", "coordinates": [%.6f, %.6f]}}'
        collection = '{"type": "FeatureCollection", "features": [\n' + ",\n".join(
            feature % (name, lon, lat) for lat, lon, name in places) + "\n]}\n"
        for words, given, said in ((("latlon", "0,0,20038", "csv", "lat", "lon", "name"), csv, "latlon: 100,000 places\n"),
                                   (("geojson", "0,0,20038", self.folder, "name"), collection, "geojson: 100,000 points\n")):
            before = resource.getrusage(resource.RUSAGE_CHILDREN).ru_utime
            self.assertEqual(Ran(*words, given=given).said, said)
            used = resource.getrusage(resource.RUSAGE_CHILDREN).ru_utime - before
            print(f"speed: {words[0]}: 100,000 places in {used:.1f} s of a processor")
            # twice the three seconds, since a processor that others share counts more
            self.assertLess(used, 6)


if __name__ == "__main__":
    unittest.main()
