"""Networks from real files, and wrong files, each of which has to be refused with what is wrong and where."""

from __future__ import annotations

import json
import tempfile
import unittest
from pathlib import Path

from helping import Done, fieldc, needs

from fieldc import Fault, files

PROGRAM = "ceiling 20; input src: bool; input load: int 0..9; metric 1..9; main = sense load;\n"


class InFolder(unittest.TestCase):
    """A test with a folder of its own."""

    def setUp(self) -> None:
        kept = tempfile.TemporaryDirectory()
        self.addCleanup(kept.cleanup)
        self.folder = Path(kept.name)

    def file(self, text: str, name: str = "given.txt") -> str:
        path = self.folder / name
        path.write_bytes(text.encode("utf-8", "surrogateescape"))
        return str(path)


class Positions(InFolder):
    def test_any_delimiter_and_order(self) -> None:
        wanted = {3: (1.5, -2.0), 4: (0.0, 1e3)}
        for mark in (",", ";", "\t", "|", ":", " ", "  "):
            for rows in (("3 1.5 -2", "4 0 1e3"), ("id x y", "3 1.5 -2", "4 0 1e3"), ("Y X ID", "-2 1.5 3", "1e3 0 4")):
                text = "\n".join(rows).replace(" ", mark) + "\n"
                self.assertEqual(files.points(self.file(text)).positions, wanted, text)

    def test_further_columns_are_inputs(self) -> None:
        name = self.file("\ufeffid;x;y;src;load;note\r\n0;1;2;TRUE;7;north\r\n\r\n1;3;4;false;0;south\r\n")
        found = files.points(name, PROGRAM)
        self.assertEqual(found.inputs, {0: {"src": True, "load": 7}, 1: {"src": False, "load": 0}})
        self.assertEqual(found.left_out, ("note",))
        self.assertEqual(files.points(name, inputs=["load"]).inputs, {0: {"load": 7}, 1: {"load": 0}})
        with self.assertRaisesRegex(Fault, "line 2: note is 'north'"):
            files.points(name)

    def test_names_are_numbered_and_kept(self) -> None:
        found = files.points(self.file('name,x,y\n"Weir, old",0,0\nmill,1,0\n'))
        self.assertEqual(found.names, {0: "Weir, old", 1: "mill"})
        kept = self.file(files.names_text(found.names), "names.csv")
        self.assertEqual(files.names_from(kept), found.names)
        self.assertEqual(files.points(self.file("01,0,0\n1,1,0\n")).names, {0: "01", 1: "1"})

    def test_positions_are_found_by_number_or_name(self) -> None:
        name = self.file("name,x,y\nmill,1,0\nweir,2,0\n")
        self.assertEqual(files.positions_for(name, [0], {0: "weir"}), {0: (2.0, 0.0)})
        with self.assertRaisesRegex(Fault, "no position of device roof"):
            files.positions_for(name, [0], {0: "roof"})
        with self.assertRaisesRegex(Fault, "give `--names` too"):
            files.positions_for(name, [0], {})

    def test_wrong_files(self) -> None:
        wrong = {
            "line 2: x is 'nan'": "id,x,y\n0,nan,1\n",
            "line 1: y is 'inf'": "0,1,inf\n",
            "line 3: device 0 is on line 1": "0,1,2\n1,2,3\n0,4,4\n",
            "line 2: 2 fields, and line 1 has 3": "0,1,2\n1,2\n",
            "line 2: x is '1.000,5'": "id;x;y\n0;1.000,5;2\n",
            "line 2: x is ''": "id,x,y\n0,,2\n",
            "has no rows": "\n\n",
            "no rows after the names": "id,x,y\n",
            "line 1: 2 numbers; with a line x,y in front": "0,1\n",
            "line 1: not a row": "0\n",
            "neither a row id, x, y, nor names": "name,east,north\n0,1,2\n",
            "two columns have one name": "id,x,y,x\n0,1,2,3\n",
            "no names of columns come first": "0,1,2,true\n",
            "line 2: the device has no name": "id,x,y\n,1,2\n",
            "isn't in UTF-8": "id,x,y\n0,1,2\udcff\n",
            "line 3: src is 'so'; it has to be true or false": "id,x,y,src,load\n0,1,2,true,1\n1,1,2,so,1\n",
            "line 2: src is '2'; it has to be true or false": "id,x,y,src,load\n0,1,2,2,1\n",
            "line 2: load is 10; it has to be a whole number from 0 to 9": "id,x,y,src,load\n0,1,2,true,10\n",
            "load is 2.5, and .*: --scale load=10 takes 25": "id,x,y,src,load\n0,1,2,true,2.5\n",
            "line 2: load is True": "id,x,y,load\n0,1,2,true\n",
        }
        for said, text in wrong.items():
            with self.subTest(said), self.assertRaisesRegex(Fault, said) as caught:
                files.points(self.file(text), PROGRAM)
            self.assertEqual(caught.exception.status, 3)
        with self.assertRaisesRegex(Fault, "can't be read") as caught:
            files.points(str(self.folder / "none.csv"))
        self.assertEqual(caught.exception.status, 5)
        with self.assertRaisesRegex(Fault, "no column far"):
            files.points(self.file("id,x,y\n0,1,2\n"), inputs=["far"])


@needs("networkx")
class Graphs(InFolder):
    def test_what_networkx_writes_is_read(self) -> None:
        import networkx

        graph = networkx.Graph()
        graph.add_node("b", src=True, load=3, x=1.0, y=2.0)
        graph.add_node("a", src=False, load=4, x=0.0, y=0.5)
        graph.add_node("lone", src=False, load=0, x=7.0, y=7.0)
        graph.add_edge("a", "b", weight=5)
        name = str(self.folder / "graph")
        for writer in (networkx.write_graphml, networkx.write_gml):
            writer(graph, name)
            found = files.network(name, PROGRAM)
            self.assertEqual(
                found.named(found.inputs),
                {node: {"src": d["src"], "load": d["load"]} for node, d in graph.nodes.items()},
            )
            self.assertEqual(found.named(found.positions), {node: (d["x"], d["y"]) for node, d in graph.nodes.items()})
            self.assertEqual([(found.called(a), found.called(b), w) for a, b, w in found.links], [("b", "a", 5)])

    def test_its_lists_of_links_are_read(self) -> None:
        import networkx

        graph = networkx.random_geometric_graph(30, 0.4, seed=1)
        numbers = {frozenset(edge): 1 for edge in graph.edges}
        name = str(self.folder / "links")
        networkx.write_edgelist(networkx.Graph(graph.edges), name)
        self.assertEqual({frozenset((a, b)): w for a, b, w in files.network(name).links}, numbers)
        networkx.write_edgelist(graph, name, data=False)
        self.assertEqual({frozenset((a, b)): w for a, b, w in files.network(name).links}, numbers)
        for place, edge in enumerate(graph.edges):
            graph.edges[edge]["weight"] = place + 1
        weights = {frozenset(edge): place + 1 for place, edge in enumerate(graph.edges)}
        for writer, options in ((networkx.write_edgelist, {}), (networkx.write_weighted_edgelist, {"delimiter": ","})):
            writer(graph, name, **options)
            self.assertEqual({frozenset((a, b)): w for a, b, w in files.network(name).links}, weights)

    def test_comments_headers_and_delimiters(self) -> None:
        for text in ("# from a\nsource,target,weight\n0,1,2\n", "0;1;2\n", "0\t1\t2\n", "  0   1   2\n\n", "0, 1, 2"):
            self.assertEqual(files.network(self.file(text)).links, ((0, 1, 2),), text)
        found = files.network(self.file("a#1 b\nb c\n"))
        self.assertEqual(sorted(found.names.values()), ["a#1", "b", "c"])
        self.assertEqual(len(files.network(self.file("01 1\n1 2\n")).devices), 3)
        spaced = files.network(self.file("old mill, weir\n"))
        self.assertEqual(sorted(spaced.names.values()), ["old mill", "weir"])

    def test_wrong_files(self) -> None:
        head = '<graphml xmlns="http://graphml.graphdrawing.org/xmlns"><graph edgedefault="undirected">'
        wrong = {
            "line 2: not a link": "0 1\n2\n",
            "line 1: not a link": "this isn't a graph at all\n",
            "line 1: not a link 'a b' or": "0 1 heavy\n",
            "isn't a list of links": '{"devices": [\n',
            "line 1: this isn't a list": "<html> <body>\n",
            "has no links": "# nothing\n",
            "line 2: 1 and 0 are linked already": "0 1 2\n1 0 3\n",
            "device 1 is linked to itself": "0 1\n1 1\n",
            "weighs '2.5', and a weight is a whole number": "0 1 2.5\n",
            "weighs 'nan', which isn't a number": "0 1 nan\n",
            "weighs '-1'": "0 1 -1\n",
            "has no weight, but others have one": "0 1 2\n1 2\n",
            "isn't a graph": head + "<node id='0'>",
            "src of device 0 is 'yes'": head + "<node id='0'><data key='k'>yes</data></node></graph></graphml>",
        }
        for said, text in wrong.items():
            if "'k'" in text:
                key = '<key id="k" for="node" attr.name="src" attr.type="string"/>'
                text = text.replace("<graph edge", key + "<graph edge")
            with self.subTest(said), self.assertRaisesRegex(Fault, said) as caught:
                files.network(self.file(text))
            self.assertEqual(caught.exception.status, 3)
        with self.assertRaisesRegex(Fault, "linked"):
            files.network(self.file("graph [ node [ id 0 ] node [ id 1 ] edge [ source 0 target 0 ] ]\n"))
        self.assertEqual(files.network(self.file("0 1 2.5\n"), rounds=True).links, ((0, 1, 2),))


class Columns(InFolder):
    @needs("networkx")
    def test_the_first_link_isn_t_taken_for_names_of_columns(self) -> None:
        for text, wanted in (
            ("a b\nb c\n", 2),
            ("a b\nc d\n", 2),
            ("u,v\nv,w\n", 2),
            ("source target\ntarget x\n", 2),
            ("a b\n0 1\n1 2\n", 2),
            ("source,target,weight\nx,y,1\n", 1),
            ("from;to\n0;1\n", 1),
        ):
            self.assertEqual(len(files.graph(self.file(text)).edges), wanted, text)


class Command(InFolder):
    def made(self, *words: object) -> Done:
        return fieldc("network", *words, folder=self.folder)

    def test_names_are_written_beside(self) -> None:
        self.file("name,x,y,src\nmill,0,0,true\nweir,1,0,false\nroof,5,5,false\n", "motes.csv")
        done = self.made(
            "--points", "motes.csv", "--range", 2, "-o", "net.json", "--positions", "at.csv", "--set", "src=true@roof"
        )
        self.assertEqual((done.status, done.output), (0, ""))
        self.assertIn("net.names.csv", done.errors)
        scene = json.loads((self.folder / "net.json").read_text())
        self.assertEqual(scene["links"], [[0, 1, 1]])
        self.assertEqual([device["inputs"]["src"] for device in scene["devices"]], [True, False, True])
        self.assertEqual((self.folder / "net.names.csv").read_text(), "id,name\n0,mill\n1,weir\n2,roof\n")
        self.assertEqual((self.folder / "at.csv").read_text(), "id,x,y\n0,0,0\n1,1,0\n2,5,5\n")
        self.assertIn("3 devices have names", self.made("--points", "motes.csv", "--range", 2).errors)

    def test_wrong_words_and_files(self) -> None:
        self.file("0,0,0\n1,1,0\n", "points.csv")
        self.file("0,nan,0\n", "nan.csv")
        self.file(PROGRAM, "program.fc")
        self.file("".join(f"{d},{d}\n" for d in range(3)), "no.csv")
        points = ("--points", "points.csv", "--range", 1)
        wrong = {
            ("--points", "points.csv", "--range", "nan"): (2, "isn't a length"),
            ("--points", "points.csv", "--range=-1"): (2, "isn't a length"),
            ("--points", "points.csv", "--range", "inf"): (2, "isn't a length"),
            ("--points", "points.csv"): (2, "need --range"),
            (*points, "--metric", "9..1"): (2, "the wrong way round"),
            (*points, "--metric", "1..9", "--unit", "0"): (2, "above 0"),
            ("--edges", "none.txt"): (5, "can't be read"),
            ("--points", "nan.csv", "--range", 1): (3, "nan.csv line 1: x is 'nan'"),
            ("--points", "no.csv", "--range", 1): (3, "with a line x,y in front rows are numbered"),
            (*points, "--set", "src=yes"): (2, "isn't NAME=VALUE"),
            (*points, "--set", "src=true@9"): (2, "there is no device 9"),
            (*points, "--program", "program.fc"): (3, "has no src"),
            (*points, "--program", "program.fc", "--set", "src=true", "--set", "load=12"): (
                3,
                "load of device 0 is 12",
            ),
            (*points, "-o", "nowhere/net.json"): (6, "no folder"),
            ("--line", 0): (2, "a number of devices"),
            ("--line", 1025): (4, "1,025 devices"),
            ("--disk", 40_000, "--range", 1): (4, "40,000 devices"),
            ("--grid", "3y2"): (2, "isn't WxH"),
            ("--disk", 40, "--range", 500): (4, "--max-degree 32"),
            ("--scene", "points.csv"): (3, "isn't a scene"),
            ("--line", 2, "--table", "points.csv"): (3, "has no table"),
        }
        for words, (status, said) in wrong.items():
            with self.subTest(words):
                done = self.made(*words)
                self.assertEqual((done.status, done.output), (status, ""), done.errors)
                self.assertIn(said, done.errors)

    def test_the_nearest_are_kept_when_asked(self) -> None:
        done = self.made("--disk", 60, "--range", 500, "--max-degree", 32)
        self.assertEqual(done.status, 0)
        count = dict.fromkeys(range(60), 0)
        links = json.loads(done.output)["links"]
        for a, b, _ in links:
            count[a] += 1
            count[b] += 1
        self.assertEqual(max(count.values()), 32)
        self.assertIn(f"{1770 - len(links)} of 1770 links are left out", done.errors)

    def test_a_network_that_falls_apart_is_told(self) -> None:
        self.file("0,0,0\n1,1,0\n2,2.5,0\n3,3.5,0\n", "row.csv")
        done = self.made("--points", "row.csv", "--range", 2, "--max-degree", 1)
        self.assertIn("the network now has 2 parts instead of 1", done.errors)

    def test_a_table_is_put_in(self) -> None:
        table = {"format": 2, "rows": [{"id": 0, "kept": [], "value": 4}]}
        self.file("yes 1\n" + json.dumps(table, separators=(",", ":")) + "\n", "run.txt")
        self.file('{"devices":[{"id":0,"inputs":{"w":1}}],"links":[],"pending":[]}', "net.json")
        scene = json.loads(self.made("--scene", "net.json", "--table", "run.txt", "--set", "w=2").output)
        self.assertEqual(scene, {"devices": [{"id": 0, "inputs": {"w": 2}}], "links": [], "table": table})


if __name__ == "__main__":
    unittest.main()
