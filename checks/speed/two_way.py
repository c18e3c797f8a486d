"""What it takes two agents that submit to each other at once, over one two-way association, beside as many messages one
way over a monologue: messages of 10 KiB, by the clock, until all are sent. The syncs of both agents, which do not vary,
come first. The ways take turns, three times each; the best counts. Words: [MESSAGES], those of each agent, 1,000.
"""
import sys

import agents
import tools

SIZE = 10_240
THERE, BACK = tools.message(SIZE, b"ACME"), tools.message(SIZE, b"GOLD", origin=b"ACME")


def pair(many, back, line, disk=None):
    """The seconds until so many messages one way and so many back are sent, and the syncs of both agents."""
    one = agents.Agent(tools.FOLDER, "GOLD-1", ["ACME-1"], many, THERE, line, disk)
    other = agents.Agent(tools.FOLDER, "ACME-1", ["GOLD-1"], back, BACK, line, disk)
    took = agents.run([other], [one], agents.links([one.name], [other.name]))
    if (one.delivered(), other.delivered()) != (back, many):
        sys.exit(f"not every message was delivered: {one.delivered()} and {other.delivered()}")
    return took.sent, [agents.Disk.counted(it.folder) for it in (one, other)] if disk else []


def main():
    many = tools.numbers(1000)[0]
    tools.machine(tools.FOLDER)
    disk = agents.Disk()
    for there, back, line in ((20, 0, agents.LINE), (10, 10, "twa 16 3")):
        print(f"{there} messages there and {back} back: syncs {pair(there, back, line, disk)[1]}", flush=True)
    ways = [lambda: pair(2 * many, 0, agents.LINE)[0], lambda: pair(many, many, "twa 16 3")[0]]
    one, both = tools.in_turn(ways)
    print(f"{2 * many} messages of 10 KiB one way: {2 * many / one[0]:.0f} a second (spread {one[1]:.2f})")
    print(f"{many} messages each way over one two-way association: {2 * many / both[0]:.0f} a second (spread "
          f"{both[1]:.2f}); as a multiple of one way {one[0] / both[0]:.2f}")


main()
