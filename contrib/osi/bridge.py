"""The sockets of a bridge: for each connection a pair of a link to our agent and an OSI connection to a peer. One OSI
connection of a lane is open at a time; an older one has been aborted, and its end was seen, before a newer one
opens."""
import asyncio
import ipaddress
import resource
import signal
import socket
import sys
import time
import traceback

import older
import rtse
import tpkt
import units
from associations import BadMap
from ber import Malformed
from opening import Called, Calling
from primitives import NormalMode, Refused

OPENS_WITHIN = 60           # seconds until an association has to stand
PATIENCE = 10               # seconds that the end of an aborted connection is waited for
STALLS_AFTER = 600          # seconds in which octets that were put have to be taken
KEPT_ALIVE_AFTER = 60       # seconds of silence after which TCP asks whether the other end is there
MOST_OPENING = 1024         # connections without an association: a newer one takes the place of the oldest
READ = 65_536
OVERHEAD = 4096             # octets of a session PDU beside what an RTTR carries, which may come in small segments


def say(text):
    moment = time.strftime("%Y-%m-%dT%H:%M:%SZ", time.gmtime())
    print(f"{moment} {text}", file=sys.stderr, flush=True)


class Pair:
    """A link to our agent and an OSI connection, of which one is there and the other is to be opened."""

    def __init__(self, bridge, number):
        self.bridge, self.number = bridge, number
        self.agent_writer = self.peer_reader = self.peer_writer = None
        self.transport = tpkt.Transport(self.send)
        self.units = units.Reader()
        self.changed, self.ended = asyncio.Event(), asyncio.Event()
        self.tasks = set()
        self.timer = None
        self.end_was_seen = False

    # What the association asks of its host -----------------------------------------------------------------

    def send(self, octets):
        if self.peer_writer and not self.peer_writer.is_closing():
            self.peer_writer.write(octets)

    def to_peer(self, pdu):
        self.transport.put(pdu)

    def to_agent(self, octets):
        if self.agent_writer and not self.agent_writer.is_closing():
            self.agent_writer.write(octets)

    def log(self, text):
        lane = self.association.lane
        of = "" if lane is None else f" {lane.peer} lane {lane.number}"
        say(f"connection {self.number}{of}: {text}")

    def later(self, seconds):
        self.timer = asyncio.get_running_loop().call_later(seconds, self.release)

    def cancel(self):
        if self.timer:
            self.timer.cancel()
            self.timer = None

    def release(self):
        self.timer = None
        if not self.association.is_over:
            self.association.release()

    def set_longest(self, size):
        self.transport.longest = 2 * (size * 1024 or units.LONGEST_PIECE) + OVERHEAD

    def calling_selector(self):
        return self.transport.calling

    def called_selector(self):
        return self.transport.called

    def address(self):
        found = ipaddress.ip_address(self.peer_writer.get_extra_info("peername")[0].partition("%")[0])
        return getattr(found, "ipv4_mapped", None) or found

    # The two directions ------------------------------------------------------------------------------------

    async def drain(self):
        """Waits until what was put is on its way, where there is much of it."""
        for writer in (self.agent_writer, self.peer_writer):
            if writer and writer.transport.get_write_buffer_size() > READ:
                async with asyncio.timeout(STALLS_AFTER):
                    await writer.drain()

    async def agent_loop(self, reader):
        while not self.association.is_over:
            octets = await reader.read(READ)
            if not octets:
                self.association.agent_is_gone()
                break
            for kind, body in self.units.received(octets):
                self.association.from_agent(kind, body)
                if self.association.is_over:
                    break
                if self.association.waits_for_lane:
                    await self.open_other()
            await self.drain()
            self.changed.set()

    async def peer_loop(self):
        while not self.association.is_over:
            octets = await self.peer_reader.read(READ)
            if not octets:
                self.end_was_seen = True
                self.log("the peer's connection ended")
                break
            for pdu in self.transport.received(octets):
                await self.from_peer(pdu)
            await self.drain()

    async def from_peer(self, pdu):
        for primitive in self.association.read(pdu):
            while not self.association.takes_from_peer and not self.association.is_over:
                self.changed.clear()
                await self.changed.wait()
            if self.association.is_over:
                return
            self.association.from_peer(*primitive)
            if self.association.waits_for_lane:
                await self.open_other()

    async def guarded(self, loop):
        """Runs one direction. Whatever ends it ends the pair, and says to both sides what is to be said."""
        association = self.association
        try:
            await loop
        except Malformed as why:
            self.quietly(association.broken, f"{why}: both sides are aborted")
        except Refused as why:
            self.log("refused: what it proposes is not done here")
            self.quietly(self.to_peer, why.args[0])
        except tpkt.Ended:
            self.log("the peer's transport connection was refused or ended")
        except (OSError, TimeoutError, RecursionError) as why:
            self.log(f"a connection broke: {why or type(why).__name__}")
            self.quietly(association.agent_is_gone)
        except BadMap as why:
            self.quietly(association.guess, "the map cannot be written")
            self.bridge.fail(str(why))
        except Exception as why:  # a fault of the bridge itself ends this association, and no other one
            self.log(f"a fault of the bridge: {traceback.format_exc()}")
            self.quietly(association.guess, f"{type(why).__name__}")
        association.is_over = True
        self.changed.set()
        self.over.set()

    def quietly(self, does, *words):
        if not self.association.is_over:
            try:
                does(*words)
            except Malformed:
                pass

    def begin(self, loop):
        task = asyncio.ensure_future(self.guarded(loop))
        self.tasks.add(task)
        return task

    # From beginning to end ---------------------------------------------------------------------------------

    async def run(self, loop):
        self.over = asyncio.Event()
        limit = asyncio.get_running_loop().call_later(OPENS_WITHIN, self.opens_late)
        try:
            self.begin(loop)
            await self.over.wait()
        finally:
            limit.cancel()
            self.cancel()
            await self.settle()

    def opens_late(self):
        if not self.association.is_open:
            self.log(f"no association within {OPENS_WITHIN} seconds")
            self.give_way()

    def give_way(self):
        """Ends the pair: another one takes its place, or the bridge stops."""
        if not self.association.is_over:
            self.association.end(rtse.TEMPORARY_PROBLEM)
        self.changed.set()
        self.over.set()

    async def settle(self):
        """Our agent hears of the end only once the peer can take nothing more from this connection, or once this was
        waited for in vain."""
        for task in self.tasks:
            task.cancel()
        await asyncio.gather(*self.tasks, return_exceptions=True)
        if self.peer_writer:
            await self.see_end()
        self.bridge.lanes.leave(self, self.end_was_seen)
        if self.agent_writer:
            if self.association.last_word:
                self.to_agent(self.association.last_word)
            await self.closed(self.agent_writer)
        self.ended.set()

    async def see_end(self):
        """Waits for the end of the peer's connection."""
        try:
            async with asyncio.timeout(PATIENCE):
                if self.peer_writer.can_write_eof() and not self.peer_writer.is_closing():
                    self.peer_writer.write_eof()
                while not self.end_was_seen:
                    self.end_was_seen = not await self.peer_reader.read(READ)
        except TimeoutError:
            self.log(f"the end of the peer's connection was not seen within {PATIENCE} seconds")
        except OSError:
            self.end_was_seen = True
        self.peer_writer.close()

    async def closed(self, writer):
        try:
            async with asyncio.timeout(PATIENCE):
                await writer.drain()
        except (OSError, TimeoutError):
            pass
        writer.close()


class Outgoing(Pair):
    """Our agent called."""

    def __init__(self, bridge, number):
        super().__init__(bridge, number)
        settings = bridge.peers[0]
        self.association = Called(self, bridge.map, settings, older.mode_named(settings.application_context))

    async def serve(self, reader, writer):
        self.agent_writer = writer
        await self.run(self.agent_loop(reader))

    async def open_other(self):
        if not await self.bridge.lanes.take(self, self.association.lane):
            return self.association.reject("an older connection of this lane may still be read", rtse.BUSY)
        if self.association.is_over:
            return None
        self.association.take_lane()
        settings = self.association.settings
        async with asyncio.timeout(OPENS_WITHIN):
            self.peer_reader, self.peer_writer = await asyncio.open_connection(*self.bridge.target)
        prepare(self.peer_writer)
        self.transport.call(settings.here.transport, settings.there.transport)
        while not self.transport.open:
            octets = await self.peer_reader.read(READ)
            if not octets:
                self.end_was_seen = True
                raise tpkt.Ended
            self.transport.received(octets)
        self.association.peer_is_ready()
        self.begin(self.peer_loop())
        return None


class Incoming(Pair):
    """A peer called."""

    def __init__(self, bridge, number):
        super().__init__(bridge, number)
        self.association = Calling(self, bridge.map, bridge.peers, NormalMode())

    async def serve(self, reader, writer):
        self.peer_reader, self.peer_writer = reader, writer
        await self.run(self.peer_loop())

    async def open_other(self):
        if not await self.bridge.lanes.take(self, self.association.lane):
            return self.association.refuse("an older connection of this lane may still be read", rtse.BUSY)
        if self.association.is_over:
            return None
        self.association.take_lane()
        try:
            async with asyncio.timeout(OPENS_WITHIN):
                reader, self.agent_writer = await asyncio.open_connection(*self.bridge.target)
        except OSError:
            return self.association.agent_is_away()
        prepare(self.agent_writer)
        self.association.agent_is_ready()
        self.begin(self.agent_loop(reader))
        return None


def prepare(writer):
    """Has TCP send at once, and ask now and then whether the other end is there."""
    link = writer.get_extra_info("socket")
    link.setsockopt(socket.IPPROTO_TCP, socket.TCP_NODELAY, 1)
    link.setsockopt(socket.SOL_SOCKET, socket.SO_KEEPALIVE, 1)
    link.setsockopt(socket.IPPROTO_TCP, socket.TCP_KEEPIDLE, KEPT_ALIVE_AFTER)


class Lanes:
    """Which pair has which lane. An OSI connection whose end was not seen may still be read for a while."""

    def __init__(self, bridge, calls):
        self.bridge, self.pairs, self.blocked = bridge, {}, {}
        left = [it for it in bridge.map.lanes.values() if it.is_up and not it.is_closed] if calls else []
        for lane in left:
            self.block(lane)

    def block(self, lane):
        seconds = next((it.unseen_end for it in self.bridge.peers if it.peer == lane.peer), 0)
        self.blocked[lane.number] = time.monotonic() + seconds

    async def take(self, pair, lane):
        """Gives the lane to a pair once no other has it. Whether it got it: not where an older connection of the lane
        has to be waited for longer than a peer waits."""
        while True:
            old = self.pairs.get(lane.number)
            left = self.blocked.get(lane.number, 0) - time.monotonic()
            if pair.association.is_over or left > PATIENCE:
                return False
            if old is not None:
                old.give_way()
                await old.ended.wait()
            elif left > 0:
                await asyncio.sleep(left)
            else:
                self.pairs[lane.number] = pair
                return True

    def leave(self, pair, end_was_seen):
        lane = pair.association.lane
        if lane is None or self.pairs.get(lane.number) is not pair:
            return
        del self.pairs[lane.number]
        if not pair.peer_writer:
            return
        if end_was_seen:
            try:
                self.bridge.map.end_seen(lane)
            except BadMap as why:
                self.bridge.fail(str(why))
        else:
            self.block(lane)


class Bridge:
    """A bridge that listens at one place. `calls` is whether our agent calls it, and it calls the peer."""

    def __init__(self, calls, target, peers, lanes_map):
        self.calls, self.target, self.peers, self.map = calls, target, peers, lanes_map
        self.lanes = Lanes(self, calls)
        self.pairs, self.count, self.failure = {}, 0, None
        self.stopped = asyncio.Event()

    def fail(self, text):
        self.failure = self.failure or text
        self.stopped.set()

    async def accept(self, reader, writer):
        self.count += 1
        pair = (Outgoing if self.calls else Incoming)(self, self.count)
        self.pairs[self.count] = pair
        self.make_room()
        try:
            prepare(writer)
            await pair.serve(reader, writer)
        except OSError as why:
            say(f"connection {pair.number}: {why}")
        finally:
            writer.close()
            del self.pairs[pair.number]

    def make_room(self):
        """Of too many connections without an association the oldest one goes."""
        opening = [it for it in self.pairs.values() if not it.association.is_open and not it.association.is_over]
        if len(opening) > MOST_OPENING and hasattr(opening[0], "over"):
            opening[0].give_way()

    async def run(self, host, port):
        server = await asyncio.start_server(self.accept, host, port, backlog=1024)
        loop = asyncio.get_running_loop()
        for number in (signal.SIGTERM, signal.SIGINT):
            loop.add_signal_handler(number, self.stopped.set)
        say(f"listening at {', '.join(str(it.getsockname()[1]) for it in server.sockets)}")
        await self.stopped.wait()
        server.close()
        pairs = list(self.pairs.values())
        for pair in pairs:
            pair.give_way()
        if pairs:
            await asyncio.wait([asyncio.ensure_future(it.ended.wait()) for it in pairs], timeout=PATIENCE)
        if self.failure:
            say(self.failure)
        return 1 if self.failure else 0


def serve(calls, here, target, peers, lanes_map):
    """Runs a bridge until it is stopped. The status of the process."""
    most = resource.getrlimit(resource.RLIMIT_NOFILE)[1]
    resource.setrlimit(resource.RLIMIT_NOFILE, (most, most))

    async def run():
        return await Bridge(calls, target, peers, lanes_map).run(*here)
    return asyncio.run(run())
