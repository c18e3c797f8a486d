"""`mta decode` of one message of 2 MiB beside `openssl asn1parse` of the same octets, and of 3,000 small messages, a
run each, beside openssl, a run each, and tshark, one run over all of them. User and system time. Words: [MESSAGES],
3,000.
"""
import struct

import tools

SMALL = "samples/message.ber"
OPENSSL = ["openssl", "asn1parse", "-inform", "DER"]


def big():
    """A message of 2 MiB."""
    with open(f"{tools.FOLDER}/big", "wb") as file:
        file.write(tools.message(2097152 - 105))
    return f"{tools.FOLDER}/big"


def captured(count):
    """A capture of so many small messages."""
    with open(SMALL, "rb") as file:
        small = file.read()
    with open(f"{tools.FOLDER}/pcap", "wb") as pcap:
        pcap.write(struct.pack("<IHHiIII", 0xA1B2C3D4, 2, 4, 0, 0, 65535, 147))
        pcap.write((struct.pack("<IIII", 0, 0, len(small), len(small)) + small) * count)
    return f"{tools.FOLDER}/pcap"


def seconds(command, file, count=1):
    return sum(tools.run(command, given=file)[1] for _ in range(count))


def main():
    tools.needs("openssl")
    tools.machine()
    count, long = tools.numbers(3000)[0], big()
    ours = [tools.MTA, "decode"]
    print(f"2 MiB: mta decode {seconds(ours, long):.3f} s, openssl asn1parse {seconds(OPENSSL, long):.3f} s",
          flush=True)
    print(f"{count} small ones, a run each: mta decode {seconds(ours, SMALL, count):.2f} s, openssl asn1parse "
          f"{seconds(OPENSSL, SMALL, count):.2f} s", flush=True)
    tools.needs("tshark")
    dissects = ["tshark", "-r", captured(count), "-X", "lua_script:checks/outside.lua", "-V"]
    print(f"{count} small ones in one run: tshark {tools.run(dissects)[1]:.2f} s")


main()
