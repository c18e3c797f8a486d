"""A mail system, agents and gateways in one folder, and processes that are begun again whenever they end."""
import contextlib
import os
import shutil
import signal
import socket
import subprocess
import sys
import threading
import time

from common import TOP, Wrong

NOBODY = 65534
LONGEST_WAIT = 1500  # seconds; a slow machine takes long


def a_port():
    with socket.create_server(("127.0.0.1", 0)) as it:
        return it.getsockname()[1]


def until(what, told, seconds=LONGEST_WAIT):
    """Waits until the call answers something, and answers it."""
    end = time.monotonic() + seconds
    while not (found := what()):
        if time.monotonic() > end:
            raise Wrong(f"not within {seconds} s: {told}")
        time.sleep(0.2)
    return found


class Loop(threading.Thread):
    """A command that is begun again whenever it ends, until this is stopped."""

    def __init__(self, words, folder, log, pause):
        super().__init__(daemon=True)
        self.words, self.folder, self.log, self.pause = words, folder, log, pause
        self.process, self.is_over = None, threading.Event()
        self.start()

    def run(self):
        with open(self.log, "ab") as log:
            while not self.is_over.is_set():
                self.process = subprocess.Popen(self.words, cwd=self.folder, stdin=subprocess.DEVNULL, stdout=log,
                                                stderr=log)
                self.process.wait()
                self.is_over.wait(self.pause)

    def stop(self):
        self.is_over.set()
        with contextlib.suppress(OSError, AttributeError):
            self.process.kill()
        self.join(60)


MASTER = """127.0.0.1:{port} inet n - n - - smtpd
pickup unix n - n 2 1 pickup
cleanup unix n - n - 0 cleanup
qmgr unix n - n 2 1 qmgr
rewrite unix - - n - - trivial-rewrite
bounce unix - - n - 0 bounce
defer unix - - n - 0 bounce
trace unix - - n - 0 bounce
proxymap unix - - n - - proxymap
anvil unix - - n - 1 anvil
smtp unix - - n - - smtp
showq unix n - n - - showq
error unix - - n - - error
retry unix - - n - - error
virtual unix - n n - - virtual
postlog unix-dgram n - n - 1 postlogd
"""
PIPE = """{name} unix - n n - 4 pipe
  flags=q null_sender= user=nobody argv={contrib}/mta-mail --to-x400 --table {table} --sent {sent} --drop {drop}
  --sender=${{sender}} -- ${{recipient}}
"""
MAIN = """compatibility_level = 3.6
queue_directory = {made}/queue
data_directory = {made}/data
command_directory = /usr/sbin
daemon_directory = {daemons}
mail_owner = postfix
setgid_group = postdrop
inet_interfaces = 127.0.0.1
inet_protocols = ipv4
myhostname = mail.one.example
mydestination =
mynetworks = 127.0.0.0/8
alias_maps =
alias_database =
local_recipient_maps =
smtputf8_enable = no
maillog_file = {made}/log
maillog_file_prefixes = {made}
message_size_limit = 30000000
virtual_mailbox_limit = 0
mailbox_size_limit = 0
virtual_mailbox_domains = one.example two.example
virtual_mailbox_base = {made}/boxes
virtual_mailbox_maps = texthash:{made}/conf/boxes
virtual_uid_maps = static:65534
virtual_gid_maps = static:65534
transport_maps = texthash:{made}/conf/transport
minimal_backoff_time = 2s
maximal_backoff_time = 5s
queue_run_delay = 2s
pipe_time_limit = 600s
default_destination_recipient_limit = 50
"""


class Host:
    """All of it below a folder. `boxes` are mail addresses whose mail is kept in Maildir folders here."""

    def __init__(self, made, programs):
        self.made, self.programs = os.path.abspath(made), programs
        os.chmod(self.made, 0o755)
        self.contrib = f"{self.made}/contrib"
        shutil.copytree(f"{TOP}/contrib", self.contrib, ignore=shutil.ignore_patterns("__pycache__"))
        self.port, self.loops, self.gateways, self.boxes = a_port(), {}, {}, []
        os.environ["PYTHONDONTWRITEBYTECODE"] = "1"

    def write(self, name, text):
        path = f"{self.made}/{name}"
        os.makedirs(os.path.dirname(path), exist_ok=True)
        with open(path, "w", encoding="utf-8") as file:
            file.write(text)
        return path

    # ---- agents

    def agent(self, name, tables):
        self.write(f"{name}/mta.tables", tables)

    def serve(self, name, *stations, sessions="1000000", pause=1):
        words = [self.programs["mta"], "serve", sessions, *stations]
        self.loops[name] = Loop(words, f"{self.made}/{name}", f"{self.made}/{name}.log", pause)

    def office(self, name, call):
        """A post office: what is dropped is handed over, and the agent is called."""
        drop, program = f"{self.made}/drop-{name}", self.programs["mta"]
        subprocess.run([f"{self.contrib}/mta-drop", "--make", f"{self.made}/{name}", drop], check=True)
        os.chmod(f"{drop}/in", 0o3777)  # this user is in no group here
        script = f"{self.contrib}/mta-drop --mta {program} . {drop}; {program} serve 1 {call}"
        self.loops[name] = Loop(["sh", "-c", script], f"{self.made}/{name}", f"{self.made}/{name}.log", 0.5)
        return drop

    # ---- gateways

    def gateway(self, name, table, agent, drop):
        """A gateway to mail of an agent: what goes to its mail domain is dropped, what mailboxes got goes to mail."""
        path, sent = self.write(f"{name}.table", table), f"{self.made}/sent-{name}"
        os.makedirs(sent)
        os.chown(sent, NOBODY, NOBODY)
        os.chmod(sent, 0o2775)
        self.gateways[name] = (path, sent, drop)
        words = [f"{self.contrib}/mta-mail-deliver", "--table", path, "--sent", sent, "--mta-store",
                 self.programs["mta_store"], "--sendmail", f"{self.made}/sendmail", f"{self.made}/{agent}"]
        self.loops[f"deliver-{name}"] = Loop(words, self.made, f"{self.made}/deliver-{name}.log", 1)

    # ---- mail

    def postfix(self, domains, boxes):
        """Begins Postfix: the mail domains of gateways, by name, and addresses that are kept here."""
        daemons = next((it for it in ("/usr/lib/postfix/sbin", "/usr/libexec/postfix") if os.path.isdir(it)), None)
        self.write("conf/main.cf", MAIN.format(made=self.made, daemons=daemons) + "".join(
            f"{name}_destination_recipient_limit = 1\n" for name in domains))
        pipes = "".join(PIPE.format(name=name, contrib=self.contrib, table=table, sent=sent, drop=drop)
                        for name, (table, sent, drop) in self.gateways.items())
        self.write("conf/master.cf", MASTER.format(port=self.port) + pipes)
        self.write("conf/transport", "".join(f"{domain} {name}:\n" for name, domain in domains.items()))
        self.write("conf/boxes", "".join(f"{it} {it}/\n" for it in boxes))
        sendmail = self.write("sendmail", f"#!/bin/sh\nexec /usr/sbin/sendmail -C {self.made}/conf \"$@\"\n")
        os.chmod(sendmail, 0o755)
        for name in ("queue", "data", "boxes"):
            os.makedirs(f"{self.made}/{name}")
        shutil.chown(f"{self.made}/data", "postfix")
        os.chown(f"{self.made}/boxes", NOBODY, NOBODY)
        ran = subprocess.run(["postfix", "-c", f"{self.made}/conf", "start"], stdout=subprocess.PIPE,
                             stderr=subprocess.STDOUT, check=False)
        if ran.returncode:
            raise Wrong(f"postfix does not start: {ran.stdout} {self.log()[-2000:]}")
        until(self.is_listening, f"postfix listens: {self.log()[-2000:]}")

    def log(self):
        with contextlib.suppress(OSError), open(f"{self.made}/log", encoding="utf-8", errors="replace") as file:
            return file.read()
        return ""

    def is_listening(self):
        with contextlib.suppress(OSError), socket.create_connection(("127.0.0.1", self.port), 5):
            return True
        return False

    def mails(self, address):
        """The mails of an address, as octets, in the order in which they came."""
        found = []
        for name in ("new", "cur"):
            with contextlib.suppress(FileNotFoundError):
                found += [f"{self.made}/boxes/{address}/{name}/{it}"
                          for it in os.listdir(f"{self.made}/boxes/{address}/{name}")]
        made = []
        for path in sorted(found, key=lambda it: (os.path.basename(it), it)):
            with contextlib.suppress(FileNotFoundError), open(path, "rb") as file:
                made.append(file.read())
        return made

    # ---- processes

    def processes(self):
        """The processes that work here, but for those of Postfix itself: their command has this folder in it, or they
        work in it."""
        found = []
        for it in filter(str.isdigit, os.listdir("/proc")):
            with contextlib.suppress(OSError):
                with open(f"/proc/{it}/cmdline", "rb") as file:
                    words = file.read()
                is_here = self.made.encode() in words or os.readlink(f"/proc/{it}/cwd").startswith(self.made)
                if is_here and b"/conf" not in words and int(it) != os.getpid() and b"postfix" not in words:
                    if not os.readlink(f"/proc/{it}/exe").startswith(("/usr/lib/postfix", "/usr/libexec/postfix",
                                                                      "/usr/lib/dovecot", "/usr/sbin/dovecot")):
                        found.append(int(it))
        return sorted(found)

    def stop(self):
        for it in self.loops.values():
            it.stop()
        subprocess.run(["postfix", "-c", f"{self.made}/conf", "stop"], stdout=subprocess.DEVNULL,
                       stderr=subprocess.DEVNULL, check=False)
        for it in self.processes():
            with contextlib.suppress(OSError):
                os.kill(it, signal.SIGKILL)


def programs_of(words):
    """The programs that were named: mta and mta_store."""
    return {name: os.path.abspath(word) for name, word in zip(("mta", "mta_store"), words)}


def needed(*tools):
    """Ends the check with a word where a tool is missing, or where this is not the user who may do it."""
    missing = [it for it in tools if not shutil.which(it, path=f"{os.environ['PATH']}:/usr/sbin")]
    if missing or os.geteuid():
        print(f"skipped: {', '.join(missing) or 'root'} is not here")
        sys.exit(0)
