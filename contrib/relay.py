#!/usr/bin/env python3
"""A connection that breaks where it is told to: relay.py PORT-FILE TO-PORT [LIMIT].

Listens on a port of 127.0.0.1 that is free, and writes its number to PORT-FILE. One connection is carried on to
TO-PORT, for which it waits until somebody listens there; with LIMIT it is dropped at both ends once so many octets of
the caller went through. Then the relay ends.
"""
import os
import socket
import sys
import threading
import time


def reached(port):
    while True:
        try:
            return socket.create_connection(("127.0.0.1", port))
        except ConnectionRefusedError:
            time.sleep(0.02)


def shut(connection):
    connection.shutdown(socket.SHUT_RDWR)


def carry(source, to, limit=None, end=shut):
    """Carries octets one way, up to the limit; after it both connections are ended."""
    went = 0
    try:
        while octets := source.recv(65536):
            if limit is not None and went + len(octets) >= limit:
                to.sendall(octets[:limit - went])
                end(source)
                end(to)
                return
            to.sendall(octets)
            went += len(octets)
        to.shutdown(socket.SHUT_WR)
    except OSError:
        pass  # the other way has dropped them


def main():
    file, port = sys.argv[1], int(sys.argv[2])
    limit = int(sys.argv[3]) if len(sys.argv) > 3 else None
    with socket.create_server(("127.0.0.1", 0)) as listener:
        listener.settimeout(600)  # a caller that never comes keeps nobody waiting
        with open(f"{file}.new", "w") as it:
            it.write(f"{listener.getsockname()[1]}\n")
        os.replace(f"{file}.new", file)
        caller = listener.accept()[0]
    called = reached(port)
    back = threading.Thread(target=carry, args=(called, caller))
    back.start()
    carry(caller, called, limit)
    back.join()
    caller.close()
    called.close()


if __name__ == "__main__":
    main()
