# Counts what a drawing shows; fails if it is not XML or its visits are not numbered from 0.
import sys
import xml.etree.ElementTree as tree

root = tree.parse(sys.argv[1]).getroot()
name = "{http://www.w3.org/2000/svg}"
assert root.tag == name + "svg", root.tag


def of(kind, key, value):
    return [e for e in root.iter(name + kind) if e.get(key) == value]


order = [int(e.text) for e in of("text", "class", "order")]
assert order == list(range(len(order))), order
steps = of("path", "class", "route")
assert len(steps) == max(0, len(order) - 1), len(steps)
ends = [(e.get("d").split(" L ")[0][2:], e.get("d").split(" L ")[2]) for e in steps]
assert all(a[0] == b[1] for a, b in zip(ends, ends[1:])), "a step does not start where the next one ends"
points = {p for pair in ends for p in pair}
cells = of("rect", "class", "cell")
width, height = float(root.get("width")), float(root.get("height"))
for e in cells:
    assert float(e.get("x")) + 64 <= width and float(e.get("y")) + 64 <= height
for p in points:
    x, y = map(float, p.split())
    assert any(0 < x - float(e.get("x")) < 64 and 0 < y - float(e.get("y")) < 64 for e in cells), p
taps = of("path", "fill", "#2e7d32")
blocked = [e for e in cells if e.get("fill") == "url(#blocked)"]
cuts = of("line", "class", "cut")
# one tap and one cut stand in the legend
counts = f"{len(order)} visits, {len(points)} points, {len(taps) - 1} taps, {len(blocked)} blocked, {len(cuts) - 1} cuts"
# with two clocks a FIFO, too: its top corner is 12 above its point
fifos = [e.get("d").split(" l ")[0][2:].split() for e in of("path", "class", "fifo")]
shown = [f"{x} {float(y) + 12:.1f}" for x, y in fifos[:-1]]
assert all(p in points for p in shown), shown
print(counts + (f", {len(shown)} FIFOs" if fifos else ""))
