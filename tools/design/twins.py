"""Functions and types of one crate whose names differ in 32 and 64 alone, and those of one name in two files."""
import collections
import glob
import re
import sys

files = collections.defaultdict(set)
for path in sorted(glob.glob(sys.argv[1] + "/*/src/*.rt")):
    crate, name = path.split("/")[-3], path.split("/")[-1]
    for item in re.finditer(r"^ *(?:pub )?(?:extern \"C\" )?(fn|struct|enum) (\w+)", open(path).read(), re.M):
        files[item.group(1), item.group(2)].add(crate + "/" + name)
for (kind, name), places in sorted(files.items()):
    other = (kind, name.replace("32", "64"))
    if "32" in name and any(place.split("/")[0] == twin.split("/")[0] for place in places for twin in files.get(other, ())):
        print("widths", kind, name, *sorted(places))
    if len(places) > 1:
        print("files", kind, name, *sorted(places))
