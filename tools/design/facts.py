"""Facts that stand in three or more contracts of a crate, and parameters that three or more functions of a crate take together."""
import collections
import glob
import re
import sys

facts = collections.defaultdict(set)
together = collections.defaultdict(set)
for path in sorted(glob.glob(sys.argv[1] + "/*/src/*.rt")):
    crate = path.split("/")[-3]
    source = open(path).read()
    for head in re.finditer(r"fn (\w+)(?:<[^(]*>)?\(([^)]*)\)", source):
        names = [p.split(":")[0].strip() for p in re.split(r",\s*(?![^<]*>)", head.group(2)) if ":" in p]
        for i, first in enumerate(names):
            for second in names[i + 1 :]:
                together[crate, first, second].add(head.group(1))
    for clause in re.finditer(r"(?:requires|ensures)[ \w]*\{(.*?)\}\n", source, re.S):
        function = re.findall(r"fn (\w+)", source[: clause.start()])[-1]
        for fact in clause.group(1).split("×"):
            facts[crate, " ".join(fact.split()).strip("() ")].add(function)
for kind, found in (("fact", facts), ("together", together)):
    for place, functions in sorted(found.items()):
        if len(functions) >= 3:
            print(kind, *place, "|", *sorted(functions))
