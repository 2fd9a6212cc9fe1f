"""The notebooks of examples/notebooks: Jupyter runs each, its outputs are those of its file, and say what follows by hand."""
import copy
import json
import os
import re
from unittest import mock

import pytest

from common import TOP, TOOLBOX, Case, tool

NOTEBOOKS = TOP / "examples" / "notebooks"


def join_outputs(cell):
    """What a cell prints as one output: Jupyter makes several, by time."""
    if any(each.output_type != "stream" or each.name != "stdout" for each in cell.outputs):
        raise AssertionError("a cell has an output that is not printed: %s" % cell.outputs)
    if cell.outputs:
        cell.outputs[0].text = "".join(each.text for each in cell.outputs)
        del cell.outputs[1:]


class Notebooks(Case):
    def told(self, name):
        """What the code of a notebook prints, cell by cell, which its file has. UPDATE=1 writes the file."""
        nbformat = pytest.importorskip("nbformat", reason="nbformat is not installed (tools/setup)")
        nbclient = pytest.importorskip("nbclient", reason="nbclient is not installed (tools/setup)")
        pytest.importorskip("ipykernel", reason="ipykernel is not installed (tools/setup)")
        path = NOTEBOOKS / (name + ".ipynb")
        kept = nbformat.read(str(path), as_version=4)
        nbformat.validate(kept)
        made = copy.deepcopy(kept)
        surroundings = {"PYTHONPATH": str(TOOLBOX), "HOME": str(self.folder), "PYTHONDONTWRITEBYTECODE": "1",
                        "PYDEVD_DISABLE_FILE_VALIDATION": "1"}
        with mock.patch.dict(os.environ, surroundings):
            nbclient.NotebookClient(made, timeout=600, kernel_name="python3", record_timing=False, resources={
                "metadata": {"path": str(self.folder)}}).execute()
        made.metadata = kept.metadata
        codes = [cell for cell in made.cells if cell.cell_type == "code"]
        for cell in codes:
            join_outputs(cell)
        if os.environ.get("UPDATE"):
            nbformat.write(made, str(path))
            kept = nbformat.read(str(path), as_version=4)
        self.assertEqual([cell.get("outputs") for cell in made.cells], [cell.get("outputs") for cell in kept.cells])
        return ["".join(each.text for each in cell.outputs).splitlines() for cell in codes]

    def test_a_hijack(self):
        """AS 20 has paths `10,1` and `4`. Half of the prefix is longer at all. With the filter it goes no further."""
        base, nobody, same, half, filtered = self.told("hijack")
        self.assertEqual(base, ["1.0.0.1 by path -", "2.0.0.1 by path 10,1", "3.0.0.1 by path 20,10,1",
                                "4.0.0.1 by path 20,10,1", "10.0.0.1 by path 1", "20.0.0.1 by path 10,1"])
        self.assertEqual((nobody, half), (["nobody hijacks: []"], ["half of it: [1, 2, 3, 10, 20]"]))
        self.assertEqual(same, ["the same prefix: [3, 20]", "4.0.0.1 chosen",
                                "10.0.0.1 lost by path length: 2 against 1 of 4.0.0.1"])
        self.assertEqual(filtered, ["203.0.113.0/24 with the filter: []", "203.0.113.0/25 with the filter: []"])

    def test_stable_states(self):
        """In each state one of the two has the route by the other. Each seed ends where the tool says that it does."""
        _, endless, states, alone = self.told("stable-states")
        self.assertEqual(endless, ["it does not converge: the same state comes back every 8 deliveries"])
        ends = {}
        for line in states:
            state, seeds = re.fullmatch(r"paths of AS 1 and AS 2: (.*), by seeds \[(.*)\]", line).groups()
            ends.update(dict.fromkeys(map(int, seeds.split(", ")), state))
        self.assertEqual(sorted(ends), list(range(1, 11)))
        self.assertEqual(set(ends.values()), {"2,3 and 3", "3 and 1,3", "no end"})
        told = json.loads(tool("sweep", TOOLBOX / "lessons" / "disagree.bgp", "--orders", 10, "--json", status=1).stdout)
        same = {row["state"]: {seed for seed, end in ends.items() if end == ends[row["orders"][0]]} for row in told["states"]}
        self.assertEqual({row["state"]: set(row["orders"]) for row in told["states"]}, same)
        self.assertEqual(alone, ["paths of AS 1 and AS 2: 2,3 and 3, by seeds %s" % list(range(1, 11))])

    def test_failures(self):
        """5.0.0.2 and 5.0.0.4 are as near to both borders, and take the lower identifier. Without a link to 5.0.0.1 one of
        them is nearer to the other border; without that of AS 7 three routers leave by AS 8, without that of AS 8 one
        leaves by AS 7. Two links take a route where they part a router without a border from all, or are both borders."""
        base, single, double = self.told("failures")
        self.assertEqual(base, ["5.0.0.1 by 7.0.0.1", "5.0.0.2 by 5.0.0.1", "5.0.0.3 by 8.0.0.1", "5.0.0.4 by 5.0.0.1"])
        moved = (("5.0.0.1 - 5.0.0.2", 1), ("5.0.0.1 - 5.0.0.4", 1), ("5.0.0.1 - 7.0.0.1", 3), ("5.0.0.2 - 5.0.0.3", 0),
                 ("5.0.0.3 - 5.0.0.4", 0), ("5.0.0.3 - 8.0.0.1", 1))
        text = "%s: lost %d, moved %d, packets another way %d, black holes %d"
        self.assertEqual(single, [text % (link, 0, count, count, 0) for link, count in moved])
        lost = (("5.0.0.1 - 5.0.0.2 and 5.0.0.2 - 5.0.0.3", 1), ("5.0.0.1 - 5.0.0.4 and 5.0.0.3 - 5.0.0.4", 1),
                ("5.0.0.1 - 7.0.0.1 and 5.0.0.3 - 8.0.0.1", 4))
        self.assertEqual(double, [text % (links, count, 0, count, count) for links, count in lost])

    def test_the_document_names_each(self):
        text = (TOP / "docs" / "howto" / "use-python.md").read_text()
        for path in NOTEBOOKS.iterdir():
            self.assertIn("examples/notebooks/%s" % path.name, text)
