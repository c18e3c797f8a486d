"""What opening a spool takes as its items grow, beside reading the file and decoding each of its APDUs once, by the
decoder that asn1c makes; and what memory it takes, beside the octets of its file. A spool is opened by `mta read` of
a mailbox that it does not have, which makes no step; memory is that of `mta serve` once it waits for a peer, less
that on an empty spool. Seconds of processors, the best of three runs. Words: ITEMS.., 1,000, 10,000 and 100,000 where
none are named.
"""
import os
import subprocess

import tools


def opening(mta, folder):
    """The best of three in seconds of a processor, and the spread."""
    return tools.processor_seconds([mta, "read", "nobody"], cwd=folder, statuses=(10,))


def decoding(decoder, folder):
    return tools.processor_seconds([decoder, "spool", f"{folder}/mta.spool"])[0] if decoder else 0


def behind(found, start):
    """Times of a process less those of its start."""
    return max(found - start, 1e-6)


def told(items, what, octets, best, spread, base):
    beside = f"; as a multiple of reading and decoding {best / base:.2f} (wished: under 3)" if base else ""
    print(f"{items} items {what}, {octets / 1e6:.1f} MB: opened in {best:.3f} s (spread {spread:.2f}), "
          f"{best / items * 1e6:.2f} us an item{beside}", flush=True)


def times(mta, folder, decoder, counts):
    found, empty = [], tools.fresh(f"{folder}/spool")
    tools.write_spool(empty, tools.TABLES, 0, b"")
    start, decoder_start = opening(mta, empty)[0], decoding(decoder, empty)
    for items in counts:
        row = [items]
        for what, domain, is_delivered in (("delivered", b"GOLD", True), ("waiting", b"ACME", False)):
            place = tools.fresh(f"{folder}/spool")
            tools.write_spool(place, tools.TABLES, items, tools.message(2, domain), is_delivered)
            (best, spread), base = opening(mta, place), decoding(decoder, place)
            best, base = behind(best, start), behind(base, decoder_start) if decoder else 0
            told(items, what, os.path.getsize(f"{place}/mta.spool"), best, spread, base)
            row += [best, base]
        found.append(row)
    tools.rows("open", found)
    first, last = found[0], found[-1]
    if last[0] > first[0]:
        growth = [last[at] / first[at] / (last[0] / first[0]) for at in (1, 3)]
        print(f"the time of an item at {last[0]} items, as a multiple of that at {first[0]}: delivered "
              f"{growth[0]:.2f}, waiting {growth[1]:.2f}")


def held(mta, folder):
    """The octets that a process holds that serves this spool and does nothing."""
    words = [mta, "serve", "1", f"in:{tools.free_port()}"]
    process = subprocess.Popen(words, cwd=folder, stdin=subprocess.DEVNULL, stdout=subprocess.DEVNULL)
    try:
        return tools.idle_memory(process)
    finally:
        process.kill()
        process.wait()


def memory(mta, folder, most):
    place = tools.fresh(f"{folder}/spool")
    tools.write_spool(place, tools.TABLES, 0, b"")
    empty, found = held(mta, place), []
    for size, items in ((2, most), (100, most), (1024, most), (10240, most // 5)):
        row = [size]
        for what, domain, is_delivered in (("delivered", b"GOLD", True), ("waiting", b"ACME", False)):
            place = tools.fresh(f"{folder}/spool")
            tools.write_spool(place, tools.TABLES, items, tools.message(size, domain), is_delivered)
            octets = os.path.getsize(f"{place}/mta.spool")
            took = held(mta, place) - empty
            part, beside = took / octets, (took - octets) / items
            wished = " (wished: under 1.3)" if size >= 1024 else ""
            print(f"memory of {items} items of {size} octets of content, {what}: {part:.2f} of the octets of the file"
                  f"{wished}; an item takes {beside:.0f} octets besides its own", flush=True)
            row.append(part)
        found.append(row)
    tools.rows("memory", found)


def main():
    mta, folder, decoder, counts = tools.MTA, tools.FOLDER, tools.DECODER, tools.numbers(1000, 10_000, 100_000)
    tools.machine(folder)
    times(mta, folder, decoder, counts)
    memory(mta, folder, max(1000, min(counts[-1], 100_000)))


main()
