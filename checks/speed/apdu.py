"""Recipients a second in messages of 1, 40 and 1,000 recipients that mta_apdu reads and writes, 40,000 recipients of
each, beside tshark, which dissects and prints the same octets in one run. User time.
"""
import struct

import tools

WORK = 40_000


def told(what, seconds):
    print(f"{what}: {3 * WORK / 1e6 / seconds:.2f} million recipients a second", flush=True)


def captured():
    """A capture of the same messages, each as often as the bench has it."""
    with open(f"{tools.FOLDER}/pcap", "wb") as pcap:
        pcap.write(struct.pack("<IHHiIII", 0xA1B2C3D4, 2, 4, 0, 0, 262144, 147))
        for many in (1, 40, 1000):
            apdu = tools.message(2, recipients=many)
            pcap.write((struct.pack("<IIII", 0, 0, len(apdu), len(apdu)) + apdu) * (WORK // many))
    return f"{tools.FOLDER}/pcap"


def main():
    tools.machine()
    sizes = [len(tools.message(2, recipients=many)) for many in (1, 40, 1000)]
    wanted = []
    for many, size in zip((1, 40, 1000), sizes):
        times = WORK // many
        wanted += [f"{many} recipients, {size} octets: read {times} times",
                   f"{many} recipients, {size} octets: written {times * size} octets"]
    tools.prints("\n".join(wanted), "apdu")
    for what in ("read", "write"):
        told(what, tools.user_seconds("apdu", what)[0])
    tools.needs("tshark")
    dissects = ["tshark", "-r", captured(), "-X", "lua_script:checks/outside.lua", "-V"]
    told("tshark", tools.ran(dissects)[1].ru_utime)


main()
