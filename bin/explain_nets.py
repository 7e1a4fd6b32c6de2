"""What the nets of a design tell: to which parts nothing is joined, and which transistors have both sides on one net.
"""
import re

MOST_TOLD = 32  # of a kind
NET = re.compile(r"^net (\d+) nd (\d+) np (\d+) nm (\d+) (.*)$", re.M)
DEVICE = re.compile(r"^device \d+ \w+ (\S+) gate \d+ low (\d+) high (\d+)$", re.M)


def up_to(found, what):
    """The first lines, and how many there are besides."""
    yield from found[:MOST_TOLD]
    if len(found) > MOST_TOLD:
        yield f"and {len(found) - MOST_TOLD} more {what}"


def explain(output):
    yield "parts on one line are joined by wires, contacts and ports that meet; parts on two lines are not"
    alone = [(net, name) for net, *pieces, name in NET.findall(output)
             if sum(map(int, pieces)) == 1 and " " not in name]
    yield from up_to([f"net {net}: nothing is joined to {name}" for net, name in alone], "such parts")
    both = [(name, low) for name, low, high in DEVICE.findall(output) if low == high]
    yield from up_to([f"transistor {name}: its low and its high side are both on net {low}" for name, low in both],
                     "such transistors")
