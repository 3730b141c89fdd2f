"""What the tests of the tools share: a tool that is run, a folder of its own, and what it must say."""
from __future__ import annotations

import os
import subprocess
import sys
import tempfile
import unittest
from pathlib import Path
from typing import Optional, Union

TOOLS = Path(__file__).resolve().parents[1]
sys.path.insert(0, str(TOOLS / "lib"))
import client  # noqa: E402, F401

from sand import NoProgram, find_program  # noqa: E402

try:
    PROGRAM: Optional[str] = find_program()
except NoProgram:
    PROGRAM = None
FRAME = "52.52,13.405,2500"
XML = """<?xml version='1.0' encoding='UTF-8'?>
<osm version="0.6">
 <node id="1" lat="52.5" lon="13.4"><tag k="amenity" v="cafe"/><tag k="name" v="Alba &amp; Co"/></node>
 <node id="2" lat="52.51" lon="13.4"/>
 <node id="3" lat="52.51" lon="13.41"/>
 <way id="9"><nd ref="1"/><nd ref="2"/><nd ref="3"/><tag k="highway" v="residential"/><tag k="name" v="Gasse"/></way>
 <way id="10"><nd ref="1"/><nd ref="2"/><nd ref="3"/><nd ref="1"/><tag k="leisure" v="park"/></way>
 <way id="11"><nd ref="1"/><nd ref="7"/><tag k="highway" v="track"/></way>
 <relation id="4"/>
</osm>
"""


class Ran:
    """A tool that ran: its status and both its texts."""

    def __init__(self, *words: object, given: Union[str, bytes] = b"", folder: Optional[str] = None) -> None:
        given = given.encode() if isinstance(given, str) else given
        ran = subprocess.run([sys.executable, str(TOOLS / str(words[0])), *map(str, words[1:])], input=given, cwd=folder,
                             stdout=subprocess.PIPE, stderr=subprocess.PIPE, timeout=120)
        self.status, self.out, self.said = ran.returncode, ran.stdout.decode(), ran.stderr.decode()


class InFolder(unittest.TestCase):
    def setUp(self) -> None:
        self._folder = tempfile.TemporaryDirectory()
        self.folder = self._folder.name
        self.addCleanup(self._folder.cleanup)

    def file(self, name: str, content: Union[str, bytes]) -> str:
        path = os.path.join(self.folder, name)
        Path(path).write_bytes(content.encode() if isinstance(content, str) else content)
        return path

    def read(self, *names: str) -> str:
        return Path(self.folder, *names).read_text(encoding="utf-8")

    def complains(self, said: str, *words: object, given: Union[str, bytes] = b"") -> None:
        """The tool ends with 1, says this and nothing else on standard error, and leaves nothing on standard output."""
        ran = Ran(*words, given=given)
        self.assertEqual((ran.status, ran.said.strip().replace(self.folder, "F")), (1, said), words)
        self.assertEqual(ran.out, "", words)
