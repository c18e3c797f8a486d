"""How long `mta_rehearse` takes for the longest walk through the tables of 64 agents, 16 KiB each, beside reading these
tables alone, both in memory (`mta_bench rehearse`); and the program itself over a file of the same length, beside one
that is told its usage line. User time, the best of seven runs; with status 1 where a walk takes more than 1.2 times
the reading.
"""
import tools

ROUNDS = 16  # of 64 texts with 276 mailboxes each
AGENTS, MAILBOXES = 64, 276
GOES_ROUND = 20


def texts():
    """The tables of the agents, each of which sends all on to the next, and the last one to the first."""
    def text(at):
        here, there = f"A{at:04}", f"A{(at + 1) % AGENTS:04}"
        rows = [f"domain C=GB;A={here}", f"name {here}", f"peer {there} a b twa 4 3", f"route C=GB peer {there}"]
        rows += [f"mailbox m{it:04} C=GB;A=GOLD;P=ACME LTD;O=WORKS;S=HOLDER {it:04}" for it in range(MAILBOXES)]
        return "".join(f"{row}\n" for row in rows)
    return "---\n".join(text(at) for at in range(AGENTS))


def program():
    """The seconds of a process that walks round, and of one that reads nothing."""
    with open(f"{tools.FOLDER}/mta.tables", "w", encoding="utf-8") as file:
        file.write(texts())

    def best(words, status):
        runs = [tools.ran([tools.REHEARSE, *words], cwd=tools.FOLDER, statuses=(status,))[1] for _ in range(7)]
        return min(it.ru_utime + it.ru_stime for it in runs)
    return best(["A0000", "C=GB;A=NORTH;S=BELL"], GOES_ROUND), best([], 1)


def main():
    tools.machine()
    tools.prints(f"{ROUNDS * AGENTS * MAILBOXES} mailboxes read", "rehearse", "read")
    tools.prints(f"{ROUNDS} walks go round", "rehearse", "walk")
    read, walk = tools.user_seconds("rehearse", "read")[0], tools.user_seconds("rehearse", "walk")[0]
    print(f"64 texts of 16 KiB: reading {read / ROUNDS * 1e3:.1f} ms, with a walk through all "
          f"{walk / ROUNDS * 1e3:.1f} ms; ratio {walk / read:.2f} (wished: at most 1.2)")
    took, start = program()
    print(f"a process of mta_rehearse over them {took * 1e3:.1f} ms, of which its start {start * 1e3:.1f} ms; as a "
          f"multiple of the walk {took / (walk / ROUNDS):.2f}")
    tools.bad_if(walk > 1.2 * read, "a walk takes more than 1.2 times the reading")


main()
