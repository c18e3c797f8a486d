"""What it takes sixteen agents to hand messages over to one, and one to sixteen, beside one to one: messages of 10 KiB
in all, by the clock, until all are sent. The syncs of a message at the one, which do not vary, come first: more
associations of one agent share one spool. The ways take turns, three times each; the best counts. Words: [MESSAGES
[AGENTS]], 2,000 and 16.
"""
import agents
import tools

SIZE = 10_240


def syncs(many, froms, tos, disk):
    """Those of the first agent that sends, and of the first that takes."""
    _, callers, called = agents.handed(many, froms, tos, SIZE, disk)
    return [disk.counted(it[0].folder) for it in (callers, called)]


def main():
    many, ways = (tools.numbers(2000, 16) + [16])[:2]
    tools.machine(tools.FOLDER)
    many = many // ways * ways
    disk = agents.Disk()
    kinds = (("one to one", 1, 1), (f"{ways} to one", ways, 1), (f"one to {ways}", 1, ways))
    for what, froms, tos in kinds:
        few, more = (syncs(it * ways, froms, tos, disk) for it in (1, 2))
        at = [(more[it] - few[it]) * (froms, tos)[it] / ways for it in (0, 1)]
        print(f"{what}: syncs of a message {at[0]:g} at the one that sends it, {at[1]:g} at the one that takes it",
              flush=True)
    found = tools.in_turn([lambda it=it: agents.handed(many, *it[1:], SIZE)[0].sent for it in kinds])
    for (what, _, _), (took, spread) in zip(kinds, found):
        print(f"{many} messages {what}: {many / took:.0f} a second (spread {spread:.2f}); as a multiple of one to one "
              f"{found[0][0] / took:.2f}")


main()
