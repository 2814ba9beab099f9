#!/usr/bin/env python3
"""Measures `burst` on generated networks, beside another program with the same command line where one is given.

    bench/burst.py [--peer PROGRAM] [--program PROGRAM] [NETWORK:SIZE ..]

For each network it writes a model, a topology and a symptom file, runs the program on them, and prints processor seconds
and peak memory, and for two programs the ratios and whether they answer alike. The program is built by `rt run` in
crates/cb_cli, which leaves it in out/. Nothing here is a test: machines are noisy, so read ratios out of one run.

The networks, of so many sites:

    pumps     one pump a site: three symptoms, two problems, no links
    ring      a switch with two ports and a cable to the next switch: four problems and four symptoms a site, sparse codes
    full      the ring with racks and plain instances besides: 2,048 sites are at all four limits of a topology
    chain     each site passes its problem on to the next: the first reaches all
    circle    the chain closed: each site reaches all
    scatter   a problem a site, each of which causes three to eight of as many symptoms
    dense     a problem a site, each of which causes about half of 96 symptoms
    hub       a problem a site, with a symptom of its own and one that all problems cause
    reading   the ring's files, with a bad first line in the symptom file: what it takes to read the network alone
"""
import pathlib
import random
import tempfile

import measure

PUMPS = (measure.ROOT / "examples" / "pumps" / "pump.model").read_text()

SWITCHES = """class Switch {
  problem Dead;
  symptom Silent;
  relation ports to Port many inverse of;
  rule silent: Dead => Silent;
  rule down: Dead => ports.Down;
}
class Port {
  problem Broken;
  event Down;
  symptom NoSignal;
  relation of to Switch one inverse ports;
  relation cable to Cable one inverse ends;
  rule breaks: Broken => Down;
  rule dark: Down => NoSignal;
  rule far: Down => cable.Lossy;
}
class Cable {
  problem Cut;
  symptom Lossy;
  relation ends to Port many inverse cable;
  rule here: Cut => Lossy;
  rule there: Cut => ends.NoSignal;
}
"""

RACKS = SWITCHES.replace(
    "  rule silent: Dead => Silent;\n",
    "  rule silent: Dead => Silent;\n  relation rack to Rack one inverse holds;\n  rule warms: Dead => rack.Hot;\n",
) + """class Rack {
  event Hot;
  event Warm;
  event Fan;
  event Dust;
  event Noise;
  relation holds to Switch many inverse rack;
  relation beside to Rack many inverse beside;
  rule spreads: Hot => beside.Warm;
  rule fan: Warm => Fan;
  rule dust: Fan => Dust;
  rule noise: Dust => Noise;
  rule shakes: Noise => holds.ports.NoSignal;
}
class Shelf {
  event A;
  event B;
  event C;
  event D;
  event E;
  event F;
}
"""

CHAIN = """class Site {
  problem Down;
  symptom Dark;
  relation next to Site one inverse before;
  relation before to Site one inverse next;
  rule shows: Down => Dark;
  rule passes-on: Down => next.Down;
}
"""

CAUSES = """class Cause {
  problem P;
  relation hits to Alarm many inverse by;
  rule r: P => hits.S;
}
class Alarm {
  symptom S;
  relation by to Cause many inverse hits;
}
"""


HUB = """class Hub {
  symptom Shared;
  relation leaves to Leaf many inverse hub;
}
class Leaf {
  problem Broken;
  symptom Own;
  relation hub to Hub one inverse leaves;
  rule own: Broken => Own;
  rule all: Broken => hub.Shared;
}
"""


def ring(sites):
    """The lines of the ring, and the symptoms to choose from."""
    lines = [line for i in range(sites) for line in (f"create s{i} Switch", f"create p{i} Port", f"create q{i} Port", f"create c{i} Cable")]
    for i in range(sites):
        lines += [f"link s{i} ports p{i}", f"link s{i} ports q{i}", f"link c{i} ends p{i}", f"link q{(i + 1) % sites} cable c{i}"]
    return lines, [f"{name}{i}" for i in range(sites) for name in ("Silent@s", "NoSignal@p", "NoSignal@q", "Lossy@c")]


def full(sites, rng):
    """The ring with two racks a site, and shelves up to the limit of instances."""
    lines, symptoms = ring(sites)
    racks = 2 * sites
    lines += [f"create r{i} Rack" for i in range(racks)] + [f"create x{i} Shelf" for i in range(2 * sites)]
    lines += [f"link s{i} rack r{rng.randrange(racks)}" for i in range(sites)]
    lines += [f"link r{i} beside r{i + 1}" for i in range(racks - 1)]
    return lines, symptoms


def chain(sites, closed):
    lines = [f"create s{i} Site" for i in range(sites)] + [f"link s{i} next s{i + 1}" for i in range(sites - 1)]
    return lines + ([f"link s{sites - 1} next s0"] if closed else []), [f"Dark@s{i}" for i in range(sites)]


def causes(sites, alarms, least, most, rng):
    lines = [f"create c{i} Cause" for i in range(sites)] + [f"create a{i} Alarm" for i in range(alarms)]
    for i in range(sites):
        hit = rng.sample(range(alarms), min(alarms, rng.randint(least, most)))
        lines += [f"link c{i} hits a{j}" for j in hit]
    return lines, [f"S@a{i}" for i in range(alarms)]


def hub(sites):
    lines = ["create hub Hub"] + [f"create l{i} Leaf" for i in range(sites)] + [f"link l{i} hub hub" for i in range(sites)]
    return lines, ["Shared@hub"] + [f"Own@l{i}" for i in range(sites)]


def network(kind, sites, rng):
    """The model, the lines of the topology, and the symptoms to choose from."""
    if kind == "pumps":
        return PUMPS, [f"create p{i} Pump" for i in range(sites)], [f"{s}@p{i}" for i in range(sites) for s in ("Noise", "Heat", "LowFlow")]
    if kind in ("ring", "reading"):
        return SWITCHES, *ring(sites)
    if kind == "full":
        return RACKS, *full(sites, rng)
    if kind in ("chain", "circle"):
        return CHAIN, *chain(sites, kind == "circle")
    if kind == "hub":
        return HUB, *hub(sites)
    if kind == "scatter":
        return CAUSES, *causes(sites, sites, 3, 8, rng)
    return CAUSES, *causes(sites, 96, 36, 60, rng)


def write_inputs(folder, kind, sites):
    rng = random.Random(1)
    model, lines, symptoms = network(kind, sites, rng)
    raised = [rng.choice(symptoms) for _ in range(20)]
    if kind == "reading":
        raised.insert(0, "no node")
    (folder / "m").write_text(model)
    (folder / "t").write_text("".join(line + "\n" for line in lines))
    (folder / "s").write_text("".join(node + "\n" for node in raised))


DEFAULT = [
    "pumps:2700", "ring:256", "ring:2048", "full:2048", "chain:2048", "chain:8192", "circle:8192",
    "scatter:2048", "scatter:8192", "dense:2048", "dense:8192", "hub:8000", "reading:2048",
]


def main():
    words = measure.programs(__doc__, nargs="*", default=DEFAULT)
    for word in words.sizes:
        kind, _, sites = word.partition(":")
        with tempfile.TemporaryDirectory() as name:
            folder = pathlib.Path(name)
            write_inputs(folder, kind, int(sites))
            measure.compare(f"{kind:8} {int(sites):5}", ["burst", "m", "t", "s"], words, folder)


if __name__ == "__main__":
    main()
