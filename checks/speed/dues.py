"""How long it takes to find what is due (`turn`), what goes to a peer next (`batch_for`) and what waits for it
(`waiting`), as the number of items grows of which all but ten wait for another peer; and what goes to that one next
once all of them have expired, before any turn and behind one. Seconds of processors of the best of three runs, of so
many calls each, less those of a run without them. Words: ITEMS.., 1,000, 10,000 and 100,000 where none are named; a
million takes minutes.
"""
import tools

# how often each is asked, so that the calls take about a second beside the opening
KINDS = (("turn", "due", 10_000_000), ("batch_for", "batch", 200_000), ("waiting", "waiting", 20_000_000),
         ("batch_for of what has expired", "expired", 200_000),
         ("batch_for of what has expired, behind a turn", "reported", 200_000))
# those of which a block of numbers costs a little; wished is a time of theirs and no ratio
PAST = ("expired", "reported")


def a_call(kind, items, rounds):
    """The seconds of one call."""
    none, _ = tools.processor_seconds([tools.BENCH, "dues", kind, str(items), "0"])
    all_of_them, spread = tools.processor_seconds([tools.BENCH, "dues", kind, str(items), str(rounds)])
    return max(all_of_them - none, 1e-6) / rounds, spread


def main():
    counts = tools.numbers(1000, 10_000, 100_000)
    tools.machine()
    found = [[items] for items in counts]
    for name, kind, rounds in KINDS:
        for row in found:
            # more calls beside an opening that takes long, whose spread is more than they take
            many = rounds * max(1, row[0] // 100_000)
            took, spread = a_call(kind, row[0], many)
            row.append(took * 1e6)
            print(f"{name}, {many} calls beside {row[0]} items: {took * 1e6:.3f} us each (spread of the runs "
                  f"{spread:.2f})", flush=True)
        if kind in PAST:
            print(f"{name}: wished beside 100,000 items: under 50 us", flush=True)
        elif len(found) > 1:
            print(f"{name} beside {counts[-1]}, as a multiple of beside {counts[0]}: "
                  f"{found[-1][-1] / found[0][-1]:.2f} (wished: at most 3)", flush=True)
    tools.rows("dues", found)


main()
