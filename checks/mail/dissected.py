#!/usr/bin/env python3
"""What the gateway writes is P1 and X.420 to others: `mta decode` takes each APDU, and tshark's dissector finds no
malformed field in the contents: checks/mail/dissected.py MTA FOLDER [COUNT].

tshark reads a content as the one octet string of a packet that is told to be X.420 (its protocol p22).
"""
import os
import re
import shutil
import struct
import subprocess
import sys

import corpus
from common import Wrong, want

import p1
from mail import to_x400

USER0 = 147  # the link type that tshark may be told about


def capture(path, packets):
    """A capture file with these packets."""
    with open(path, "wb") as file:
        file.write(struct.pack("<IHHiIII", 0xA1B2C3D4, 2, 4, 0, 0, 262144, USER0))
        for octets in packets:
            file.write(struct.pack("<IIII", 0, 0, len(octets), len(octets)) + octets)


def decoded(mta, apdu):
    ran = subprocess.run([mta, "decode"], input=apdu, stdout=subprocess.PIPE, check=False)
    want("mta decode", (ran.returncode, ran.stdout[:60].partition(b" ")[0]), (0, b"message"))


def dissected(folder, contents):
    """How many packets tshark dissects as X.420, and the lines that tell of something malformed."""
    path = os.path.join(folder, "contents.pcap")
    capture(path, [it for it in contents if len(it) < 60000])
    rule = 'uat:user_dlts:"User 0 (DLT=147)","p22","0","","0",""'
    ran = subprocess.run(["tshark", "-r", path, "-o", rule, "-V"], stdout=subprocess.PIPE, stderr=subprocess.DEVNULL,
                         check=False)
    text = ran.stdout.decode("utf-8", "replace")
    return text.count("this-IPM"), re.findall(r".*(?:Malformed|BER Error).*", text)


def main():
    mta, folder, count = os.path.abspath(sys.argv[1]), sys.argv[2], int((sys.argv[3:] or ["60"])[0])
    try:
        wishes = to_x400.Wishes("bell@example.org", [corpus.X400[0]])
        apdus = [to_x400.apdus_of(corpus.mail(seed), wishes, corpus.TABLE)[0][1] for seed in range(count)]
        for each in apdus:
            decoded(mta, each)
        print(f"mta decode takes {count} messages of mails")
        if not shutil.which("tshark"):
            print("tshark is not here: the contents are not dissected")
            return 0
        contents = [p1.apdu_of(it).content for it in apdus]
        seen, wrong = dissected(folder, contents)
        want("malformed fields that tshark finds", wrong, [])
        want("that tshark dissects X.420", seen >= len([it for it in contents if len(it) < 60000]), True)
        print(f"tshark finds no malformed field in {count} contents")
    except Wrong as why:
        print(why)
        return 1
    return 0


if __name__ == "__main__":
    sys.exit(main())
