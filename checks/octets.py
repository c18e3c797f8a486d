#!/usr/bin/env python3
"""The whole session in octets of docs/PROTOCOL.md, played to `mta serve`: checks/octets.py MTA FOLDER.

What the initiator puts there is put as it stands, and what the program answers has to be the document's octets. The
message arrives, and the peer of checks/peer reads the same units, by the names that the document gives them.
"""
import os
import re
import socket
import subprocess
import sys
import time

TOP = os.path.dirname(os.path.dirname(os.path.abspath(__file__)))
sys.path.insert(0, f"{TOP}/checks/peer")
import units  # noqa: E402

HEADING = "## A whole session in octets"
TABLES = ("domain C=GB;A=GOLD\nname gold\npeer silver theirs ours monologue 4 3\n"
          "mailbox watt C=GB;A=GOLD;S=WATT\n")


def session():
    """Who puts each unit, its name, and its octets."""
    with open(f"{TOP}/docs/PROTOCOL.md", encoding="utf-8") as file:
        text = file.read().split(HEADING, 1)[1].split("\n## ", 1)[0]
    found = []
    for line in re.findall(r"^    (.*)$", text, re.M):
        head = re.fullmatch(r"(silver|gold) +([A-Za-z]+(?: \d+)?) +((?:[0-9A-F]{2} *)+)", line)
        if head:
            found.append([head[1], head[2], bytes.fromhex(head[3])])
        else:
            found[-1][2] += bytes.fromhex(line)
    return found


def name_of(unit):
    word = "data" if isinstance(unit, units.Data) else type(unit).__name__
    return f"{word} {unit[0]}" if type(unit) in units.NUMBERS else word


def answered(connection, size):
    got = b""
    while len(got) < size:
        octets = connection.recv(size - len(got))
        if not octets:
            break
        got += octets
    return got


def connected(port):
    for _ in range(600):
        try:
            return socket.create_connection(("127.0.0.1", port), timeout=120)
        except ConnectionRefusedError:
            time.sleep(0.1)
    sys.exit("nobody listens")


def main():
    mta, folder = os.path.abspath(sys.argv[1]), sys.argv[2]
    os.makedirs(folder)
    with open(f"{folder}/mta.tables", "w", encoding="ascii") as file:
        file.write(TABLES)
    with socket.create_server(("127.0.0.1", 0)) as it:
        port = it.getsockname()[1]
    serving = subprocess.Popen([mta, "serve", "1", f"in:{port}"], cwd=folder, stdout=subprocess.PIPE)
    said = session()
    with connected(port) as connection:
        for who, name, octets in said:
            if name_of(units.read(octets[4], octets[5:])) != name:
                sys.exit(f"the octets of {name} are those of {name_of(units.read(octets[4], octets[5:]))}")
            if who == "silver":
                connection.sendall(octets)
            elif (got := answered(connection, len(octets))) != octets:
                sys.exit(f"{name}: the program answers\n{got.hex(' ')}\nand not\n{octets.hex(' ')}")
    if serving.communicate(timeout=120)[0] != b"station 1 sessions 1 closed 1\n":
        sys.exit("the session was not closed")
    with open(f"{TOP}/samples/message.ber", "rb") as file:
        if not any(isinstance(it, units.Data) and it.octets == file.read() for it in
                   (units.read(octets[4], octets[5:]) for _, name, octets in said if name == "data")):
            sys.exit("the message is not the sample")
    read = subprocess.run([mta, "read", "watt"], cwd=folder, stdin=subprocess.DEVNULL, capture_output=True, text=True)
    if "message C=GB;A=GOLD/M0001" not in read.stdout:
        sys.exit("the message did not arrive")
    print(f"the session of {len(said)} units in docs/PROTOCOL.md goes as it stands there")


main()
