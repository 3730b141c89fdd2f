#!/usr/bin/env python3
"""house.py: counts that tell how the sources stand, from the top of the repository; it prints, and judges nothing.

  bench/house.py        the counts
  bench/house.py -v     the places behind them
"""
import collections
import glob
import re
import sys

LONG_LINE, LONG_FILE, LONG_SENTENCE = 200, 300, 45
DEFINITION = re.compile(r"(?:unfoldable |abbrev )?pub (?:record |data )?([A-Za-z_][\w'-]*)\b.* :")


def lines(path):
    with open(path, encoding="utf-8") as file:
        return file.read().split("\n")


def files(folder, ending):
    return sorted(glob.glob(f"crates/*/{folder}/**/*.{ending}", recursive=True))


def crates():
    return [line.split(":")[0].split()[0] for line in lines("crates.txt") if ":" in line and not line.startswith("#")]


def main():
    defined = collections.defaultdict(set)
    places = collections.OrderedDict((word, []) for word in ("names of two crates", "definitions without a sentence", "long sentences", "long lines of src and specs", "long lines of proofs", "long files"))
    for path in files("specs", "antt"):
        text = lines(path)
        for i, line in enumerate(text):
            found = DEFINITION.match(line)
            if not found:
                continue
            defined[found.group(1)].add(path.split("/")[1])
            above = text[i - 1].strip() if i else ""
            if not above.startswith("--"):
                places["definitions without a sentence"].append(f"{path}:{i + 1}")
            elif any(len(part.split()) > LONG_SENTENCE for part in re.split(r"[.;:] ", above)):
                places["long sentences"].append(f"{path}:{i + 1}")
    places["names of two crates"] = [f"{name}: {', '.join(sorted(where))}" for name, where in sorted(defined.items()) if len(where) > 1]
    for word, paths in (("long lines of src and specs", files("src", "rt") + files("specs", "antt")), ("long lines of proofs", files("proofs", "antt"))):
        places[word] = [f"{path}:{i + 1}" for path in paths for i, line in enumerate(lines(path)) if len(line) > LONG_LINE]
    places["long files"] = [path for path in files("src", "rt") + files("specs", "antt") + files("proofs", "antt") if len(lines(path)) > LONG_FILE]
    print(f"crates: {len(crates())}")
    for word, found in places.items():
        print(f"{word}: {len(found)}")
        if "-v" in sys.argv[1:]:
            print("".join(f"  {place}\n" for place in found), end="")


main()
