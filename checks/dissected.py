"""What Wireshark's dissectors of X.411 and X.420 show of an APDU, for the checks that make some."""
import shutil
import subprocess

FAULTS = ("Malformed", "Dissector bug", "BER Error", "Unknown")


def is_there():
    return all(shutil.which(it) for it in ("tshark", "text2pcap"))


def text_of(apdu, folder, top):
    """The dissectors' text, with a folder for files that go on the way; `top` is that of the repository."""
    dump = "".join(f"{at:06x} {apdu[at:at + 16].hex(' ')}\n" for at in range(0, len(apdu), 16)).encode()
    to = f"{folder}/dissected.pcap"
    subprocess.run(["text2pcap", "-q", "-l", "147", "-", to], input=dump, check=True, stderr=subprocess.DEVNULL)
    words = ["tshark", "-r", to, "-X", f"lua_script:{top}/checks/outside.lua", "-V"]
    return subprocess.run(words, stdout=subprocess.PIPE, stderr=subprocess.DEVNULL, check=True).stdout.decode()


def lacks(text, lines):
    """What is wrong with the text: a line that it has not, or a fault that the dissectors found."""
    wrong = [f"it does not show {line!r}" for line in lines if line not in text]
    return wrong + [f"it has {bad!r}" for bad in FAULTS if bad in text]
