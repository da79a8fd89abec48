"""Runs `carp` from Python, and reads the files that it reads and writes.

Paths go in, and dataclasses come out. A call that `carp` does not carry out raises a `Refusal`, with the exit code of
docs/FORMATS.md and a message. This solves a graph of `networkx`, whose edges have a `cost`, and a `demand` if they need
service:

    import carp_run
    import networkx

    graph = networkx.Graph()
    graph.add_edge("yard", "mill", cost=4)
    graph.add_edge("mill", "bridge", cost=3, demand=2)
    graph.add_edge("bridge", "yard", cost=5, demand=1)
    town, names = carp_run.instance_of(graph.edges(data=True), depot="yard", capacity=2)
    report, certificate = carp_run.solved(town.text())
    print(f"cost {report.cost}, and no plan costs less than {report.bound}")
    for tour in carp_run.tours_of(certificate):
        for move in tour:
            u, v = town.edges[move.edge - 1].ends[:: 1 if move.forward else -1]
            print("serve" if move.serves else "drive", names[u - 1], names[v - 1])

The program is the one that the environment names in CARP, else that of the checkout that this file stands in, else
`carp` on the path. Vertices and edges are numbered from 1, the required edges first.
"""
from carp_run.calls import (
    Bounds, Finished, Report, SheetStep, SheetTour, Started, answer_of, check, checked, improve, program, report_at_end,
    report_of, run, sheet, solve, solved, start_improve, start_solve,
)
from carp_run.files import (
    Edge, Instance, Move, Refusal, contents, instance_from, instance_of, read_instance, tours_of, write_whole,
)

__all__ = [
    "Bounds", "Edge", "Finished", "Instance", "Move", "Refusal", "Report", "SheetStep", "SheetTour", "Started",
    "answer_of", "check", "checked", "contents", "improve", "instance_from", "instance_of", "program", "read_instance",
    "report_at_end", "report_of", "run", "sheet", "solve", "solved", "start_improve", "start_solve", "tours_of",
    "write_whole",
]
