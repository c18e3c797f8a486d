"""Reading messages of 1, 40 and 1,000 recipients in memory, beside the decoder that asn1c makes of a module of the
same types (asn1c.asn1): 40,000 recipients of each, of asn1c with and without a check of sizes and characters, which
the reading of mta_apdu always has. Then the program's start, beside that of /bin/true, and `mta decode` of a message
of 2 MiB and of one of 10,000 recipients, beside the process of that decoder, which prints nothing. Seconds of
processors, the best of three runs.
"""
import tools

# recipients that are read of each kind of message, as in crates/mta_bench/src/apdu.rt
WORK = 40_000


def written(name, octets):
    with open(f"{tools.FOLDER}/{name}", "wb") as file:
        file.write(octets)
    return f"{tools.FOLDER}/{name}"


def reading():
    """All three messages: one process of the bench, three of the decoder."""
    each = [(written(f"of{many}", tools.message(2, recipients=many)), WORK // many) for many in (1, 40, 1000)]

    def decodes(*more):
        return sum(tools.run([tools.DECODER, "apdu", file, str(times), *more])[1] for file, times in each)
    ways = [lambda: tools.run([tools.BENCH, "apdu", "read"])[1], decodes, lambda: decodes("check")]
    ours, theirs, checked = tools.in_turn(ways)
    for what, (best, spread) in (("mta_apdu", ours), ("asn1c", theirs), ("asn1c, and its check", checked)):
        print(f"{what}: {best:.3f} s for 120,000 recipients (spread {spread:.2f}), as a multiple of mta_apdu's "
              f"{best / ours[0]:.2f}")
    print(f"reading, as a part of asn1c's time: {ours[0] / theirs[0]:.2f} (wished: 1 and less)")


def processes():
    start, mta, decoder = 500, tools.MTA, tools.DECODER
    empty = written("empty", b"")

    def starts(*words, **how):
        def way():
            took = [tools.run(list(words), **how) for _ in range(start)]
            return sum(it[0] for it in took) / start
        return way
    small = written("small", tools.message(2))
    ways = [starts(mta, "decode", given=empty, statuses=(6,)), starts("/bin/true"),
            starts(mta, "decode", given=small), starts(decoder, "apdu", small, "1")]
    ours, plain, one, theirs = tools.in_turn(ways)
    print(f"an empty `mta decode`: {ours[0] * 1e3:.2f} ms by the clock (spread {ours[1]:.2f}), as a multiple of "
          f"/bin/true's {ours[0] / plain[0]:.2f}")
    print(f"`mta decode` of 101 octets: {one[0] * 1e3:.2f} ms (spread {one[1]:.2f}), as a multiple of the decoder's "
          f"process {one[0] / theirs[0]:.2f}")
    for what, octets in (("2 MiB", tools.message(2097152 - 105)),
                         ("10,000 recipients", tools.message(2, recipients=10_000))):
        file = written("long", octets)
        ways = [lambda: tools.run([mta, "decode"], given=file)[1], lambda: tools.run([decoder, "apdu", file, "1"])[1]]
        ours, theirs = tools.in_turn(ways, 5)
        print(f"`mta decode` of {what}: {ours[0] * 1e3:.1f} ms of a processor (spread {ours[1]:.2f}), as a multiple of "
              f"the decoder's {ours[0] / theirs[0]:.2f}")


def main():
    tools.machine()
    reading()
    processes()


main()
