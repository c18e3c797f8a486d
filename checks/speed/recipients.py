"""How long one message of many recipients takes: all of them unknown and reported, delivered to a mailbox, relayed to
a peer in one activity, or half of them waiting for a peer while the others are reported; and opening a spool in which
they were reported. Seconds of processors of the best of three runs, less those of a message of one recipient, over a
disk in memory. Words: RECIPIENTS.., 10, 100, 1,000, 10,000 and 32,767 where none are named. Those of whom half wait go
to 10,000 alone, since more take minutes.
"""
import tools

KINDS = ("settle", "deliver", "relay", "mixed")
# a spool is opened so often that the openings take longer than what was done before them
OPENINGS = 5
MOST_MIXED = 10_000


def of_kind(kind, count, openings=0):
    """The seconds of a message of so many recipients."""
    return tools.processor_seconds([tools.BENCH, "recipients", kind, str(count), str(openings)])


def of_opening(count):
    """The seconds of one opening behind a message of which each recipient was reported."""
    none, _ = of_kind("settle", count)
    some, spread = of_kind("settle", count, OPENINGS)
    return max(some - none, 1e-6) / OPENINGS, spread


def main():
    counts = tools.numbers(10, 100, 1000, 10_000, 32_767)
    tools.machine()
    found = [[count] for count in counts]
    for name in (*KINDS, "opening"):
        alone = 0 if name == "opening" else of_kind(name, 1)[0]
        for row in found:
            if name == "mixed" and row[0] > MOST_MIXED:
                row.append(0)
                continue
            took, spread = of_opening(row[0]) if name == "opening" else of_kind(name, row[0])
            row.append(max(took - alone, 1e-6))
            each = f"{row[-1] / row[0] * 1e6:.2f} us a recipient"
            if name == "mixed":
                # each of those who are reported is looked for behind the half who wait
                each += f", {row[-1] / max(row[0] ** 2 / 4, 1) * 1e6:.2f} us a verdict"
            print(f"{name}, {row[0]} recipients: {row[-1]:.3f} s (spread of the runs {spread:.2f}), {each}", flush=True)
        by_count = {row[0]: row[-1] for row in found}
        if 100 in by_count and 1000 in by_count:
            print(f"{name} of 1,000, as a multiple of 100: {by_count[1000] / by_count[100]:.1f} (wished: at most 12)",
                  flush=True)
    tools.rows("recipients", found)


main()
