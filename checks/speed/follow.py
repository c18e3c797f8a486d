"""What a round trip for each record costs: a spool of records of 1 KiB that is pushed to a standby over loopback,
beside appending as many bodies of that length to a journal in a file; and beside the bound, two plain processes of
which one sends the records, each once the other has written the one before with two syncs and answered an octet. All
on one disk, in turns, three times each; the best counts. Words: [RECORDS], 5,000.
"""
import os
import shutil
import socket
import subprocess
import time

import tools

SIZE = 1024  # octets of a body
AREAS = b"MTASPL01\x01" + tools.number(0, 3) + b"\x0a\xff" + bytes(9)


def spool(count):
    """The octets of one with the format, and then tables of one length, each of another name."""
    records = [tools.record(b"\x19" + tools.number(2, 4))]
    for number in range(1, count):
        text = b"domain C=GB;A=GOLD\nname GOLD-%d\n" % number
        text += b"# " + b"x" * (SIZE - 5 - len(text) - 3) + b"\n"
        records.append(tools.record(b"\x01" + tools.counted(text)))
    return AREAS + b"".join(records) + b"\0"


def appends(folder, many):
    def way():
        if os.path.exists(f"{folder}/file"):
            os.remove(f"{folder}/file")
        return tools.run([tools.BENCH, "journal", "journal", f"{folder}/file", str(many), str(SIZE)])[0]
    return way


def pushes(folder, many):
    def way():
        shutil.rmtree(f"{folder}/standby", ignore_errors=True)
        os.mkdir(f"{folder}/standby")
        port = str(tools.free_port())
        words = {"stdout": subprocess.PIPE, "text": True}
        pull = subprocess.Popen([tools.FOLLOW, "pull", port], cwd=f"{folder}/standby", **words)
        start = time.monotonic()
        push = subprocess.run([tools.FOLLOW, "push", "localhost", port], cwd=f"{folder}/spool", **words)
        took = time.monotonic() - start
        assert (push.stdout, pull.communicate()[0]) == (f"pushed {many}\n", f"kept {many}\n"), push.stdout
        return took
    return way


def takes(link, path, many):
    """Writes as many records as come, each with its sync and its gate with another, and answers an octet for each."""
    file = os.open(path, os.O_CREAT | os.O_WRONLY | os.O_TRUNC)
    for at in range(0, many * SIZE, SIZE):
        os.pwrite(file, link.recv(SIZE, socket.MSG_WAITALL), at)
        os.fdatasync(file)
        os.pwrite(file, b"\x01", at)
        os.fdatasync(file)
        link.sendall(b"\x01")
    os.close(file)


def passes(folder, many):
    def way():
        with socket.create_server(("127.0.0.1", 0)) as server:
            child = os.fork()
            if not child:
                takes(server.accept()[0], f"{folder}/plain", many)
                os._exit(0)
            start = time.monotonic()
            with socket.create_connection(server.getsockname()) as link:
                link.setsockopt(socket.IPPROTO_TCP, socket.TCP_NODELAY, 1)
                for _ in range(many):
                    link.sendall(bytes(SIZE))
                    link.recv(1)
        os.waitpid(child, 0)
        return time.monotonic() - start
    return way


def main():
    folder, many = tools.FOLDER, tools.numbers(5000)[0]
    tools.machine(folder)
    os.mkdir(f"{folder}/spool")
    with open(f"{folder}/spool/mta.spool", "wb") as file:
        file.write(spool(many))
    ours, local, plain = tools.in_turn([pushes(folder, many), appends(folder, many), passes(folder, many)])
    print(f"{many} records of {SIZE} octets: pushed over loopback in {ours[0]:.1f} s (spread {ours[1]:.2f}), appended "
          f"in {local[0]:.1f} s (spread {local[1]:.2f}): {ours[0] / local[0]:.2f} times as long (wished: at most 1.3)")
    print(f"two plain processes, a round trip and two synced writes for each: {plain[0]:.1f} s (spread {plain[1]:.2f}); "
          f"pushed, as a multiple {ours[0] / plain[0]:.2f}")


main()
