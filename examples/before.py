"""Before a subtree is handed out, does it hold, and if not, what would mend it?"""
import sys

import zirofen

with open(sys.argv[1], encoding="utf-8") as file:
    tree = file.read()
alice = zirofen.User(1000, (1000,))
try:
    answer = zirofen.check(tree, alice, "/c0")
except zirofen.Fault as fault:
    sys.exit(f"no answer: {fault}")
if isinstance(answer, zirofen.Contained):
    print("hand it out")
else:
    print("keep it:", answer)
    for change in zirofen.advise(tree, [alice], ["/c0"]).changes:
        print("or before:", change)
