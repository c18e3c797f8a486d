"""A Postfix of its own in a folder, to take times beside: its configuration, queue and daemons. It needs Debian's
package `postfix`, and root, since its daemons take on users of their own. Nothing of the system's Postfix is touched.
"""
import os
import pwd
import shutil
import subprocess
import sys
import time

import tools

MAIN = """compatibility_level = 3.6
queue_directory = {folder}/queue
data_directory = {folder}/data
maillog_file = {folder}/data/log
myhostname = gold.example
mydestination =
inet_interfaces = 127.0.0.1
inet_protocols = ipv4
mynetworks = 127.0.0.0/8
alias_maps =
alias_database =
smtputf8_enable = no
relayhost = [127.0.0.1]:{port}
smtp_host_lookup = native
smtp_destination_concurrency_limit = {many}
initial_destination_concurrency = {many}
default_process_limit = 100
smtpd_relay_restrictions = permit_mynetworks, reject
smtpd_client_restrictions = static:HOLD
smtpd_client_connection_count_limit = 0
"""
# what smtpd takes is held, so that nothing more becomes of it
MASTER = """{port} inet n - n - - smtpd -o myhostname=silver.example
pickup unix n - n 60 1 pickup
cleanup unix n - n - 0 cleanup
qmgr unix n - n 300 1 qmgr
tlsmgr unix - - n 1000? 1 tlsmgr
rewrite unix - - n - - trivial-rewrite
bounce unix - - n - 0 bounce
defer unix - - n - 0 bounce
trace unix - - n - 0 bounce
proxymap unix - - n - - proxymap
smtp unix - - n - - smtp
error unix - - n - - error
retry unix - - n - - error
anvil unix - - n - 1 anvil
scache unix - - n - 1 scache
postlog unix-dgram n - n - 1 postlogd
"""


class Queue:
    def __init__(self, folder):
        self.folder, self.port = folder, tools.free_port()

    @staticmethod
    def ready(folder):
        """A Postfix in this folder that does not run yet; none, with a word, where there is none to be had."""
        for tool in ("postfix", "postconf", "sendmail", "postsuper", "postqueue", "smtp-source"):
            if not shutil.which(tool):
                print(f"without Postfix: {tool} is not on the PATH")
                return None
        try:
            owner = pwd.getpwnam("postfix").pw_uid
        except KeyError:
            owner = None
        if owner is None or os.geteuid() or not folder.startswith("/var/"):
            print("without Postfix: its daemons need root, its own user, and a folder under /var")
            return None
        queue = Queue(folder)
        for place in ("conf", "queue", "data"):
            os.makedirs(f"{folder}/{place}")
        # others than its owner have to get through to the folder, which mktemp made
        os.chmod(os.path.dirname(folder), 0o755)
        os.chown(f"{folder}/data", owner, -1)
        queue.configure(1)
        queue.call("postfix", "check")
        return queue

    def configure(self, many):
        for name, text in (("main", MAIN), ("master", MASTER)):
            with open(f"{self.folder}/conf/{name}.cf", "w", encoding="utf-8") as file:
                file.write(text.format(folder=self.folder, port=self.port, many=many))

    def call(self, program, *words):
        said = subprocess.run([program, "-c", f"{self.folder}/conf", *words], capture_output=True, text=True)
        if said.returncode:
            sys.exit(f"{program} {words}: {said.stderr}")

    def counted(self, *places):
        """How many messages stand in these parts of the queue."""
        return sum(len(it[2]) for place in places for it in os.walk(f"{self.folder}/queue/{place}"))

    def empty(self):
        """It has no message any more."""
        for place in ("maildrop", "hold", "incoming", "active", "deferred", "defer"):
            for folder, _, files in os.walk(f"{self.folder}/queue/{place}"):
                for file in files:
                    os.remove(f"{folder}/{file}")

    def sends(self, size, many):
        """The seconds that each of so many calls of sendmail takes, which puts one of this size into the queue."""
        with open(f"{self.folder}/text", "wb") as file:
            file.write(b"Subject: M0001\n\n" + (b"H" * 63 + b"\n") * (size // 64))
        words = ["sendmail", "-C", f"{self.folder}/conf", "-f", "bell@gold.example", "watt@acme.example"]
        start = time.monotonic()
        for _ in range(many):
            tools.run(words, given=f"{self.folder}/text")
        took = (time.monotonic() - start) / many
        if self.counted("maildrop") != many:
            sys.exit("Postfix's queue has another number of messages")
        self.empty()
        return took

    def start(self, many):
        """It runs, and hands over over so many connections at a time."""
        self.configure(many)
        self.call("postfix", "start")
        tools.wait_for_port(self.port)

    def stop(self):
        self.call("postfix", "stop")
        self.empty()

    def is_handed(self, size, many, connections):
        """The seconds in which a client that has no queue, smtp-source, hands so many messages over to smtpd."""
        words = ["smtp-source", "-s", str(connections), "-m", str(many), "-l", str(size)]
        return tools.run([*words, "-f", "bell@gold.example", "-t", "watt@acme.example", f"127.0.0.1:{self.port}"])[0]

    def hands(self):
        """The seconds in which what is held goes from the queue over to smtpd, where it is held again."""
        many = self.counted("hold")
        start = time.monotonic()
        self.call("postsuper", "-H", "ALL")
        self.call("postqueue", "-f")
        while self.counted("incoming", "active", "deferred") or self.counted("hold") < many:
            if time.monotonic() - start > 120:
                sys.exit("Postfix has not handed over in two minutes")
            time.sleep(0.01)
        return time.monotonic() - start
