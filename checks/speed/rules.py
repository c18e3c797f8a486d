"""What a verdict costs at the last of 1,000 recipients beside the first, where each leads to a mailbox and where each
leads to a peer; and what the copy of a message with the longest content costs beside a copy of its octets and the
head. User time, the best of seven runs.
"""
import tools

TO_MAILBOX, TO_PEER, COPIES = 2_000_000, 10_000, 2000
WANTED = f"""first-to-mailbox: passed on {TO_MAILBOX} times
last-to-mailbox: passed on {TO_MAILBOX} times
first-to-peer: passed on {TO_PEER} times
last-to-peer: passed on {TO_PEER} times
head: 288000 octets
copy: 4194304000 octets
octets: 4194226000 octets
none: 0 octets"""


def main():
    tools.machine()
    tools.prints(WANTED, "rules")
    first, last, first_peer, last_peer, head, copy, octets, none = (
        tools.user_seconds("rules", line.split(":")[0])[0] for line in WANTED.splitlines())
    print(f"a verdict at the last of 1,000 recipients, to the first: {last / first:.2f} to a mailbox "
          f"({last / TO_MAILBOX * 1e6:.2f} us), {last_peer / first_peer:.2f} to a peer "
          f"({last_peer / TO_PEER * 1e6:.0f} us)")
    copied, shared, headed = ((it - none) / COPIES * 1e6 for it in (copy, octets, head))
    ratio = (copy - none) / max(octets + head - 2 * none, 1e-6)
    print(f"a copy of 2 MiB: {copied:.0f} us, its octets alone {shared:.0f} us, its head {headed:.1f} us; ratio "
          f"{ratio:.2f}")
    tools.bad_if(last > 1.5 * first or last_peer > 1.5 * first_peer, "the last recipient costs more than the first")
    tools.bad_if(ratio > 1.5, "a copy costs more than 1.5 times its octets and the head")


main()
