"""What docs/changes.md says of the bounds of blocks on the network of docs/blocks.md: its rows, and that both ends of
hop counts and distances are lengths of paths that the lines allow."""

from __future__ import annotations

import unittest

from helping import TOP, needs, needs_fc

PAGE = TOP / "docs/changes.md"


@needs_fc
@needs("networkx")
class Widths(unittest.TestCase):
    def test_the_table(self) -> None:
        import block_widths

        whole = (TOP / "docs/block_widths.txt").read_text()
        self.assertEqual(block_widths.table(), whole)
        shown = PAGE.read_text().split("```\n width  settled  ")[1].split("```")[0].splitlines()[1:]
        self.assertGreater(len(shown), 10)
        self.assertEqual([line for line in shown if line not in whole.splitlines()], [])

    def test_less_movement(self) -> None:
        import block_cases
        import block_widths

        import fieldc

        program, lines = block_widths.composed("hops(sense source, 12)"), block_widths.lines_of_moves(24 / 16)
        wide = block_widths.mean_width(fieldc.bounds(program, block_cases.scenes()[0].text(), lines))
        self.assertIn(f"With a sixteenth `hops` has a width of {wide}.", PAGE.read_text())

    def test_each_block_is_in_it(self) -> None:
        import block_widths

        from fieldc import blocks

        wanted = {one.name for one in blocks.read_library([TOP / "library"]).values() if not one.is_part}
        self.assertEqual({call.split("(")[0] for call in block_widths.calls()}, wanted)

    def test_ends_are_ways(self) -> None:
        """The least end is the least way over all links that may be there, with their least weights, and the greatest
        end that over the sure links with their greatest ones; the least of 1 is that of a hop."""
        import block_cases
        import block_widths
        import networkx

        from fieldc import bounds, networks
        from fieldc.envelopes import envelope_of

        scene = block_cases.scenes()[0]
        made = networks.read_scene(scene.text())
        lines = block_widths.lines_of_moves()
        envelope = envelope_of(made, "\n".join(lines), networks.declared(block_cases.HEAD))
        for call, far in (("hops(sense source, 12)", 12), ("distance(sense source, 60)", 60)):
            ends = []
            for pairs, at in ((envelope.links, 0), (envelope.sure_links, 1)):
                graph = networkx.Graph()
                graph.add_nodes_from(made.devices)
                hop = far == 12
                graph.add_weighted_edges_from((*pair, 1 if hop else envelope.links[pair][at]) for pair in pairs)
                ways = networkx.single_source_dijkstra_path_length(graph, 0)
                ends.append({device: min(far, ways.get(device, far)) for device in made.devices})
            found = bounds(block_widths.composed(call), scene.text(), lines).by_device
            self.assertEqual({one: (held.bound.low, held.bound.high) for one, held in found.items()},
                             {one: (ends[0][one], ends[1][one]) for one in made.devices})  # fmt: skip


if __name__ == "__main__":
    unittest.main()
