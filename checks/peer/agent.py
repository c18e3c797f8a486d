"""An agent of the real program in a folder, over loopback, and what its queue and mailboxes hold."""
import os
import re
import socket
import subprocess
import sys
import time

from pairs import Wrong

sys.path.insert(0, os.path.join(os.path.dirname(os.path.abspath(__file__)), "..", "..", "contrib"))
from message import message  # noqa: E402

PATIENCE = 30  # seconds until a port has to listen


def free_port():
    with socket.create_server(("127.0.0.1", 0)) as it:
        return it.getsockname()[1]


def connect(port):
    """A connection to a port that listens, or is about to."""
    end = time.monotonic() + PATIENCE
    while True:
        try:
            return socket.create_connection(("127.0.0.1", port))
        except ConnectionRefusedError:
            if time.monotonic() > end:
                raise Wrong(f"nobody listens at port {port}") from None
            time.sleep(0.01)


class Agent:
    """`mta` in a folder with these tables."""

    serving_ones = []  # the processes that were begun

    def __init__(self, mta, folder, tables):
        self.mta, self.folder, self.serving = mta, folder, None
        os.mkdir(folder)
        with open(f"{folder}/mta.tables", "w") as file:
            file.write(tables)

    def run(self, *words, given=b""):
        did = subprocess.run([self.mta, *words], cwd=self.folder, input=given, capture_output=True)
        if did.returncode != 0:
            raise Wrong(f"mta {' '.join(words)} in {self.folder} ended with {did.returncode}: {did.stdout[-200:]}")
        return did.stdout.decode()

    def submit(self, octets):
        return self.run("submit", given=octets)

    def serve(self, *words, under=()):
        """Begins `serve`, by the command `under` where one is given."""
        self.serving = subprocess.Popen([*under, self.mta, "serve", *words], cwd=self.folder, stdin=subprocess.DEVNULL,
                                        stdout=subprocess.PIPE, text=True)
        self.serving_ones.append(self.serving)

    def kill(self):
        """Kills the serving process, which has to be there still."""
        if self.serving.poll() is not None:
            raise Wrong(f"serve ended with {self.serving.returncode}: {self.serving.stdout.read()}")
        self.serving.kill()
        self.serving.communicate()

    @classmethod
    def end(cls):
        """Kills what serves still."""
        for it in cls.serving_ones:
            if it.poll() is None:
                it.kill()

    def told(self):
        """The lines of the serving process, once it has ended with status 0."""
        told, _ = self.serving.communicate(timeout=120)
        if self.serving.returncode != 0:
            raise Wrong(f"serve ended with {self.serving.returncode}: {told}")
        return told

    def look(self):
        """The queue of a copy of the spool, which another process may have."""
        folder = f"{self.folder}/look"
        os.makedirs(folder, exist_ok=True)
        subprocess.run(["cp", f"{self.folder}/mta.spool", f"{folder}/mta.spool"], check=True)
        did = subprocess.run([self.mta, "spool"], cwd=folder, stdin=subprocess.DEVNULL, capture_output=True, text=True)
        if did.returncode != 0:
            raise Wrong(f"a copy of the spool in {self.folder} ended with {did.returncode}: {did.stdout}")
        return did.stdout

    def statuses(self, looked=None):
        """The words of what became of all recipients, in the order of the queue."""
        queue = self.run("spool") if looked is None else looked
        return re.findall(r"^recipient \d+ ([a-z]+) ", queue, re.M)

    def identifiers(self, mailbox):
        """The local identifiers of the messages of a mailbox, in their order."""
        return re.findall(r"^message [^/\n]*/(.*)$", self.run("read", mailbox), re.M)

    def subjects(self, mailbox):
        """The local identifiers of which the reports of a mailbox tell."""
        return re.findall(r"^subject [^/\n]*/(.*)$", self.run("read", mailbox), re.M)


__all__ = ["Agent", "connect", "free_port", "message"]
