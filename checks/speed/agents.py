"""Agents of mta that hand messages over, for the figures that take their time: spools in folders, runs in which some
agents are called by others over loopback until all is sent, and a disk whose syncs are counted or take longer.
"""
import os
import subprocess
import sys
import time

import tools

# checkpoints of 16 KiB: a message of 10 KiB goes in one piece
LINE = "monologue 16 3"


def domain_of(name):
    """The domain of an agent, as of ACME-1."""
    return name.split("-")[0]


def tables_of(name, peers, line):
    """The tables of an agent: its peers, each with such a line; a mailbox of its own domain; a route to each other."""
    routes = {domain_of(peer): peer for peer in reversed(peers)}
    rows = [f"domain C=GB;A={domain_of(name)}", f"name {name}"]
    rows += [f"peer {peer} secret secret {line}" for peer in peers]
    rows += [f"mailbox watt C=GB;A={domain_of(name)};S=WATT"]
    rows += [f"route C=GB;A={domain} peer {peer}" for domain, peer in routes.items()]
    return "".join(f"{row}\n" for row in rows).encode()


class Disk:
    """What a program has for a disk while checks/speed/syncs.c is preloaded: each sync takes so many microseconds more,
    and is counted."""

    def __init__(self, microseconds=0):
        tools.needs("cc")
        self.microseconds, self.library = microseconds, f"{tools.FOLDER}/syncs.so"
        if not os.path.exists(self.library):
            words = ["cc", "-O2", "-Wall", "-shared", "-fPIC", "-o", self.library, f"{tools.HERE}/syncs.c", "-ldl"]
            subprocess.run(words, check=True)

    def env(self, folder):
        """The environment of a process whose syncs are counted in the file `syncs` of a folder."""
        told = f"{folder}/syncs"
        with open(told, "wb") as file:
            file.write(bytes(8))
        more = {"SYNC_MICROSECONDS": str(self.microseconds), "SYNC_TOLD": told}
        return {**os.environ, **more, "LD_PRELOAD": self.library}

    @staticmethod
    def counted(folder):
        """How many syncs a process made."""
        with open(f"{folder}/syncs", "rb") as file:
            return int.from_bytes(file.read(), sys.byteorder)


class Agent:
    """An agent in a new folder, whose spool holds so many messages that wait. `disk` is a `Disk`, or the plain one."""

    def __init__(self, folder, name, peers, many=0, octets=b"", line=LINE, disk=None):
        self.folder, self.name, self.disk = tools.fresh(f"{folder}/{name}"), name, disk
        tools.write_spool(self.folder, tables_of(name, peers, line), many, octets)

    def begun(self, words):
        env = self.disk.env(self.folder) if self.disk else None
        return subprocess.Popen(words, cwd=self.folder, env=env, stdin=subprocess.DEVNULL, stdout=subprocess.DEVNULL)

    def delivered(self):
        """How many messages were delivered to its mailbox."""
        said = subprocess.run([tools.MTA, "spool"], cwd=self.folder, capture_output=True, text=True, check=True).stdout
        return sum(line.startswith("recipient 1 delivered ") for line in said.splitlines())


class Took:
    """What a run took: the seconds until those that call had sent all, and until all had ended, when what came is
    delivered; those of the processors of all agents."""

    def __init__(self):
        self.sent = self.ended = self.worked = 0.0


def links(ones, others):
    """A link from each of some agents to each of others, by their names: the one that calls and the other one, and the
    port that is called and the port where it listens."""
    ports = {(one, other): tools.free_port() for one in ones for other in others}
    return [(*names, port, port) for names, port in ports.items()]


def run(called, callers, wires):
    """Each of `called` serves a session on each of its links, and each of `callers`, which are started once the others
    listen, calls on its own."""
    took, processes = Took(), []
    try:
        for agent in called:
            ports = [f"in:{link[3]}" for link in wires if link[1] == agent.name]
            processes.append(agent.begun([tools.MTA, "serve", "1", *ports]))
        for link in wires:
            tools.wait_for_port(link[3])
        start = time.monotonic()
        for agent in callers:
            outs = [f"out:{link[1]}:127.0.0.1:{link[2]}" for link in wires if link[0] == agent.name]
            processes.append(agent.begun([tools.MTA, "serve", "1", *outs]))
        used = [os.wait4(it.pid, 0) for it in processes[len(called):]]
        took.sent = time.monotonic() - start
        used += [os.wait4(it.pid, 0) for it in processes[:len(called)]]
        took.ended = time.monotonic() - start
    except BaseException:
        for process in processes:
            process.kill()
        raise
    if any(it[1] for it in used):
        sys.exit(f"an agent ended with another status: {[it[1] for it in used]}")
    took.worked = sum(it[2].ru_utime + it[2].ru_stime for it in used)
    return took


def handed(many, froms, tos, size, disk=None):
    """A run in which so many messages, with a content of this size, go from so many agents to so many, each with its
    part; what it took, those that send and those that take."""
    froms, tos = [f"GOLD{it}-1" for it in range(froms)], [f"ACME{it}-1" for it in range(tos)]
    callers, domains = [], [domain_of(it).encode() for it in tos]
    for it in froms:
        octets = [tools.message(size, domain, origin=domain_of(it).encode()) for domain in domains]
        callers.append(Agent(tools.FOLDER, it, tos, many // len(froms), octets, disk=disk))
    called = [Agent(tools.FOLDER, it, froms, disk=disk) for it in tos]
    took = run(called, callers, links(froms, tos))
    if sum(it.delivered() for it in called) != many // len(froms) * len(froms):
        sys.exit("not every message was delivered")
    return took, callers, called
