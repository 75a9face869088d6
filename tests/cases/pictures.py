"""`tools/picture`, and the pictures of docs/pictures/."""

import re
import shutil
import subprocess
import sys
import tempfile
from itertools import islice, takewhile
from pathlib import Path
from xml.etree import ElementTree

from cases.tables import ALL, ALL_PAIRS, PROFILE, STATES, table_printed
from harness.counting import ROOT, Skipped
from harness.texts import differing

PICTURE = ROOT / "tools/picture"
PICTURES = ROOT / "docs/pictures"
NAMESPACE = "{http://www.w3.org/2000/svg}"
SHOWN_IN = {"request.svg": "docs/contracts.md", "shards.svg": "docs/model.md"}
SHOWN_IN |= {"profile.svg": "docs/model.md", "life.svg": "README.md docs/model.md", "crash.svg": "docs/disk.md"}
"""The pictures, and the documents that show them."""
SOURCES = {"life.dot", "crash.dot"}
"""What pictures are made of."""
SECONDS = 300
LETTER, ABOVE, BELOW = 0.605, 0.8, 0.25
"""The room of a letter, and above and below the line on which it stands, for each unit of its size. All letters are as wide."""
SIZE = 13
"""The size of the letters of a matrix."""
SEVERAL = """from 0
wake removed available
rows 1
from 2000
go in_depot available
rest available in_depot
sleep available in_depot
stay in_depot in_depot
rows 4
"""
OF_SEVERAL = {"from-0.svg": ["removed", "available"], "from-2000.svg": ["in_depot", "available"]}
"""The pictures of several tables, and their states in order."""
LONG = ["k" * 32, "m" * 15 + "_" + "w" * 16, "_" * 32, f"{'m' * 30}_w", "a_" * 8, "trip_leave_jurisdiction"]
LARGE = {
    "nine states, and as many types as have room": ALL_PAIRS,
    "long names": [(kind, ALL, ALL) for kind in LONG],
    "one long name": [("k" * 32, "in_depot", "in_depot"), ("a", "available", "in_depot")],
}
NO_TABLES = ["", "\n", "rows 1\n", "wake removed available\n", "wake removed\nrows 0\n", "a b <c>\nrows 1\n", "from x\n"]
NO_TABLES += ["a b c\nrows 2\n", "a b c\nfrom 1\nrows 1\n", "a&amp;b b c\nrows 1\n", "a b c&d\nrows 1\n", 'a "b" c\nrows 1\n']
NO_TABLES += ["a ]]> c\nrows 1\n", f"{'a' * 33} b c\nrows 1\n", "ä b c\nrows 1\n", "from 1<2\na b c\nrows 1\n"]
LIFE = ["removed", "available", "reserved", "on_trip", "non_operational"]
"""The states of a vehicle's everyday life."""
LABEL = r"\[label=<<table [^>]*><tr><td [^>]*>(.*)</td></tr></table>>\]"
EDGE = re.compile(rf"^  (\w+)(?::\w+)? -> (\w+)(?::\w+)?\n    {LABEL}$", re.M)
SIGNS = {"␣": " ", "⏎": "\n", "\xa0": " "}
"""The signs of the bytes of a file, in the picture of a crash."""
STEPS = 40
"""In how many pieces each curve of an arrow is looked at."""


def draw(*words, given=""):
    """The status of a run of the tool, and what it printed on both outputs."""
    words = [sys.executable, PICTURE, *map(str, words)]
    ran = subprocess.run(words, input=given.encode(), capture_output=True, timeout=SECONDS)
    return ran.returncode, ran.stdout, ran.stderr


def cells_of(printed):
    """The types of each pair of states, as a table was printed."""
    cells = {}
    for words in (line.split() for line in printed.splitlines()):
        if len(words) == 3:
            cells.setdefault((words[1], words[2]), []).append(words[0])
    return cells


def room_of(x, y, text, size):
    """The room of a line of text that begins at this place: its left, top, right and bottom."""
    return x, y - ABOVE * size, x + len(text) * LETTER * size, y + BELOW * size


def rooms_of(text):
    """The rooms of the lines of a text of a matrix."""
    x, y = float(text.get("x")), float(text.get("y"))
    yield room_of(x, y, text.text, SIZE)
    for piece in text:
        y += float(piece.get("dy"))
        yield room_of(float(piece.get("x")), y, piece.text, SIZE)


def boxes_in(root):
    """The boxes of the cells of a matrix: left, top, right and bottom."""
    for it in root.iter(f"{NAMESPACE}rect"):
        if it.get("class"):
            left, top, wide, high = (float(it.get(name)) for name in ("x", "y", "width", "height"))
            yield left, top, left + wide, top + high


def texts_in(root, kind):
    """The texts of a kind, each with the rooms of its lines."""
    for it in root.iter(f"{NAMESPACE}text"):
        if it.get("class") == kind:
            yield "".join(it.itertext()), list(rooms_of(it))


def is_within(room, box):
    return box[0] <= room[0] and box[1] <= room[1] and room[2] <= box[2] and room[3] <= box[3]


def is_on(one, other):
    """Whether two rooms have some room in common."""
    return min(one[2], other[2]) > max(one[0], other[0]) and min(one[3], other[3]) > max(one[1], other[1])


def pairs_on(rooms):
    """The numbers of rooms that lie on another one."""
    in_order = sorted(range(len(rooms)), key=lambda number: rooms[number][1])
    for place, number in enumerate(in_order, 1):
        below = takewhile(lambda other: rooms[other][1] < rooms[number][3], islice(in_order, place, None))
        yield from ((number, other) for other in below if is_on(rooms[number], rooms[other]))


def heads_in(root):
    """The states of the columns, from left to right, and of the rows, from the top down, each with the place of its head."""
    boxes = list(boxes_in(root))
    left, top = min(box[0] for box in boxes), min(box[1] for box in boxes)
    named = [(state, box) for state, (room,) in texts_in(root, "state") for box in boxes if is_within(room, box)]
    columns = sorted((box[0], box[2], state) for state, box in named if box[1] == top)
    rows = sorted((box[1], box[3], state) for state, box in named if box[0] == left)
    return columns, rows


def cells_in(root):
    """The types that stand where the row of a state and the column of another meet, from top to bottom."""
    cells = {}
    columns, rows = heads_in(root)
    for kind, rooms in sorted(texts_in(root, "type"), key=lambda it: it[1][0][1]):
        left, top, *_ = rooms[0]
        start = next((state for low, high, state in rows if low < top < high), None)
        end = next((state for low, high, state in columns if low < left < high), None)
        cells.setdefault((start, end), []).append(kind)
    return cells


def unreadable(root):
    """Which texts of a matrix lie on another, or in no cell; and which cells lie on another, or outside of the picture."""
    whole = tuple(float(number) for number in root.get("viewBox").split())
    boxes = list(boxes_in(root))
    yield from (f"cell {box} isn't within {whole}" for box in boxes if not is_within(box, whole))
    yield from (f"cell {boxes[one]} is on {boxes[other]}" for one, other in pairs_on(boxes))
    texts = [it for kind in ("axis", "state", "type") for it in texts_in(root, kind)]
    rooms = [room for _, rooms in texts for room in rooms]
    homes = [[box for box in boxes if is_within(room, box)] for room in rooms]
    yield from (f"a text in {room} has the cells {home}" for room, home in zip(rooms, homes) if len(home) != 1)
    yield from (f"the text in {rooms[one]} is on {rooms[other]}" for one, other in pairs_on(rooms))


def amiss(picture, printed, states):
    """What is wrong with the picture of a table that was printed so, which has these states in order."""
    root, cells = ElementTree.fromstring(picture), cells_of(printed)
    for named in heads_in(root):
        if [state for *_, state in named] != states:
            yield f"states {named}, in place of {states}"
    if len(list(boxes_in(root))) != (1 + len(states)) ** 2:
        yield f"{len(list(boxes_in(root)))} cells of {len(states)} states"
    found = cells_in(root)
    for pair in [*cells, *found]:
        if found.get(pair) != cells.get(pair):
            yield f"from {pair[0]} to {pair[1]} {found.get(pair)}, in place of {cells.get(pair)}"
    told = [group.findtext(f"{NAMESPACE}title") for group in root.iter(f"{NAMESPACE}g")]
    if sorted(told) != sorted(f"{start} to {end}: {', '.join(types)}" for (start, end), types in cells.items()):
        yield f"under the pointer {told}"
    yield from unreadable(root)


def picture_of_the_profile(program):
    """The picture that is kept is what the tool draws of the table that the program prints: each row's type stands where the row
    of its first state and the column of its second one meet, and nothing lies on anything else."""
    printed = subprocess.run([program, "table"], capture_output=True, text=True, timeout=SECONDS).stdout
    status, drawn, faults = draw(given=printed)
    if status or faults:
        yield f"status {status}: {faults!r}"
    yield from differing((PICTURES / "profile.svg").read_bytes(), drawn, "docs/pictures/profile.svg has")
    named = {state for _, *both in PROFILE for states in both for state in states.split()}
    yield from amiss(drawn, table_printed(PROFILE), [state for state in STATES if state in named])


def pictures_of_large_tables(_):
    """Cells grow with what stands in them, for any table of nine states, and for the longest names."""
    for name, entries in LARGE.items():
        printed = table_printed(entries)
        status, drawn, faults = draw(given=printed)
        if status or faults:
            yield f"{name}: status {status}: {faults!r}"
        named = {state for _, *both in entries for states in both for state in states.split()}
        yield from (f"{name}: {wrong}" for wrong in amiss(drawn, printed, [state for state in STATES if state in named]))


def pictures_of_several_tables(_):
    """Of several tables each has a picture of its own, which says from when on it is in force."""
    with tempfile.TemporaryDirectory() as folder:
        ended = draw("--out", folder, given=SEVERAL)
        if ended != (0, b"", b""):
            yield f"ended with {ended}"
        found = {path.name: path.read_bytes() for path in Path(folder).iterdir()}
    if set(found) != set(OF_SEVERAL):
        yield f"pictures {sorted(found)}"
    printed = re.split("^from .*\n", SEVERAL, flags=re.M)[1:]
    for (name, states), table in zip(OF_SEVERAL.items(), printed):
        yield from (f"{name}: {wrong}" for wrong in amiss(found[name], table, states))
    if b"in force from 2000 on" not in found["from-2000.svg"]:
        yield "a picture doesn't say from when on its table is in force"
    status, out, faults = draw(given=SEVERAL)
    if (status, out) != (2, b"") or b"--out FOLDER" not in faults:
        yield f"without a folder it ended with {status}, {out!r}, {faults!r}"


def pictures_of_no_table(_):
    """Of what is no table there is no picture, nor of names with a character that means something in a picture."""
    for given in NO_TABLES:
        status, out, faults = draw(given=given)
        if (status, out) != (2, b"") or not faults.startswith(b"picture: "):
            yield f"{given!r}: {status}, {out[:80]!r}, {faults!r}"


def pictures_of_the_documents(_):
    """Each picture that is kept is XML with a title, and is shown where it belongs, with a text in its place."""
    found = {path.name for path in PICTURES.iterdir()}
    if found != {*SHOWN_IN, *SOURCES}:
        yield f"pictures {sorted(found)}"
    for name, documents in SHOWN_IN.items():
        root = ElementTree.fromstring((PICTURES / name).read_bytes())
        of_graph = root.findtext(f"{NAMESPACE}g[@class='graph']/{NAMESPACE}title")
        if not of_graph and not (root.findtext(f"{NAMESPACE}title") and root.get("role") == "img"):
            yield f"{name} has no title"
        for document in documents.split():
            place = "docs/pictures" if document == "README.md" else "pictures"
            text = (ROOT / document).read_text()
            if f"]({place}/{name})" not in text or f"![]({place}/{name})" in text:
                yield f"{document} doesn't show {name} with a text"


def groups_in(root, kind):
    """The nodes or the edges of a graph that was laid out, by their titles."""
    return {it.findtext(f"{NAMESPACE}title"): it for it in root.iter(f"{NAMESPACE}g") if it.get("class") == kind}


def edges_in(root):
    """The types at each edge of a graph that was laid out."""
    for title, group in groups_in(root, "edge").items():
        start, end = (name.partition(":")[0] for name in title.split("->"))
        yield (start, end), [it.text for it in group.iter(f"{NAMESPACE}text")]


def labels_of(group):
    """The rooms of the texts of a node or of an edge."""
    for it in group.iter(f"{NAMESPACE}text"):
        x, y, size = (float(it.get(name)) for name in ("x", "y", "font-size"))
        room = room_of(x, y, it.text, size)
        half = (room[2] - room[0]) / 2 if it.get("text-anchor") == "middle" else 0
        yield room[0] - half, room[1], room[2] - half, room[3]


def curve_of(group):
    """The points that name the curves of an edge, or round a node."""
    found = group.find(f"{NAMESPACE}path").get("d")
    numbers = [float(number) for number in re.findall(r"-?[\d.]+", found)]
    return list(zip(numbers[::2], numbers[1::2]))


def way_of(group):
    """Places along an edge, one close to the other, as rooms of no size."""
    points = curve_of(group)
    for front in range(0, len(points) - 1, 3):
        yield from (at(points[front : front + 4], step / STEPS) for step in range(STEPS + 1))


def at(points, part):
    """The place on a curve with four points, this part of the way on."""
    parts = (1 - part) ** 3, 3 * part * (1 - part) ** 2, 3 * part**2 * (1 - part), part**3
    x, y = (sum(part * point[axis] for part, point in zip(parts, points)) for axis in (0, 1))
    return x, y, x, y


def box_of(node):
    """The room of a node's box."""
    xs, ys = zip(*curve_of(node))
    return min(xs), min(ys), max(xs), max(ys)


def touching(root):
    """Which labels of a graph touch another, a state's box, or an arrow; and which names of states leave their boxes."""
    nodes, edges = groups_in(root, "node"), groups_in(root, "edge")
    labels = [(title, room) for title, group in edges.items() for room in labels_of(group)]
    rooms = [room for _, room in labels]
    yield from (f"a label of {labels[one][0]} is on one of {labels[other][0]}" for one, other in pairs_on(rooms))
    for title, node in nodes.items():
        box = box_of(node)
        yield from (f"a label of {edge} is on {title}" for edge, room in labels if is_on(room, box))
        yield from (f"{title} leaves its box" for room in labels_of(node) if not is_within(room, box))
    for title, group in edges.items():
        way = list(way_of(group))
        crossed = {edge for edge, room in labels if any(is_within(place, room) for place in way)}
        yield from (f"the arrow {title} crosses a label of {edge}" for edge in sorted(crossed))


def of_the_life():
    """The rows of the profile between the states of the everyday life: the types of each pair."""
    cells = cells_of(table_printed(PROFILE))
    return {pair: types for pair, types in cells.items() if set(pair) <= set(LIFE)}


def graph_amiss(root):
    """What is wrong with the states and the edges of a graph that was laid out."""
    if set(groups_in(root, "node")) != set(LIFE):
        yield f"states {sorted(groups_in(root, 'node'))}"
    if dict(edges_in(root)) != of_the_life():
        yield f"edges {dict(edges_in(root))}, in place of {of_the_life()}"


def graph_of_the_everyday_life(_):
    """The graph that is kept, and its source, have exactly the rows of the profile between its states. No label touches
    another, a state, or an arrow."""
    source = {(start, end): types.split("<br/>") for start, end, types in EDGE.findall((PICTURES / "life.dot").read_text())}
    if source != of_the_life():
        yield f"docs/pictures/life.dot has {source}, in place of {of_the_life()}"
    root = ElementTree.parse(PICTURES / "life.svg").getroot()
    yield from graph_amiss(root)
    yield from touching(root)


def graph_as_it_is_laid_out(_):
    """What `dot` makes of the source has these states, edges and types, too. Where it puts them is its version's affair."""
    dot = shutil.which("dot")
    if not dot:
        raise Skipped("no `dot` here")
    ran = subprocess.run([dot, "-Tsvg", PICTURES / "life.dot"], capture_output=True, timeout=SECONDS)
    if ran.returncode or ran.stderr:
        yield f"status {ran.returncode}: {ran.stderr!r}"
    yield from graph_amiss(ElementTree.fromstring(ran.stdout))


def lines_told(file):
    """The texts of a journal's lines that count: those up to the first gate that isn't open."""
    whole = file.split("\n")[:-1]
    return [line[1:] for line in takewhile(lambda line: line.startswith(" "), whole)]


def bytes_shown(node):
    """The bytes of the file that a node of the picture of a crash shows in its last line."""
    texts = list(node.iter(f"{NAMESPACE}text"))
    lowest = max(float(it.get("y")) for it in texts)
    shown = "".join(it.text for it in texts if float(it.get("y")) == lowest)
    return "".join(SIGNS.get(sign, sign) for sign in shown)


def graph_of_a_crash(_):
    """Of each file that the picture of a crash shows, the lines that count are among those that a crash leaves."""
    nodes = groups_in(ElementTree.parse(PICTURES / "crash.svg").getroot(), "node")
    files = {name: node for name, node in nodes.items() if f"left_{name}" in nodes}
    if len(files) != 5:
        yield f"files {sorted(files)}"
    for name, node in files.items():
        left = [it.text.removeprefix("or: ") for it in nodes[f"left_{name}"].iter(f"{NAMESPACE}text")]
        told = ", ".join(lines_told(bytes_shown(node)))
        if told not in left:
            yield f"{name}: the lines {told}, and a crash leaves {left}"


PICTURED = [
    picture_of_the_profile,
    pictures_of_large_tables,
    pictures_of_several_tables,
    pictures_of_no_table,
    pictures_of_the_documents,
    graph_of_the_everyday_life,
    graph_as_it_is_laid_out,
    graph_of_a_crash,
]
