"""A post office: hands messages over to an agent in one association, where each submission by itself would take the
time of opening the spool."""
import socket
import sys
from pathlib import Path

sys.path.insert(0, str(Path(__file__).resolve().parents[2] / "contrib" / "osi"))
import ber  # noqa: E402
import rtse  # noqa: E402
import session  # noqa: E402
import units  # noqa: E402

NAME = b"POST"
LINE = "peer POST from-agent from-post monologue 0 1"


class Post:
    def __init__(self, port):
        self.link = socket.create_connection(("127.0.0.1", port), 60)
        self.reader, self.come = units.Reader(), []
        reference = session.Reference(NAME, b"261202040154Z", b"%010d" % port)
        asked = rtse.Opening(0, 1, rtse.MONOLOGUE, rtse.Bind(NAME, b"from-post"))
        self.put(units.open_unit(NAME, reference, rtse.request(asked)), units.ACCEPT)

    def put(self, octets, answer):
        self.link.sendall(octets)
        while not self.come:
            octets = self.link.recv(4096)
            assert octets, "the agent ended the link"
            self.come += self.reader.received(octets)
        kind, body = self.come.pop(0)
        assert kind == answer, (kind, body)

    def send(self, number, apdu):
        self.put(units.unit(units.START, number) + units.unit(units.DATA, body=ber.element(4, apdu))
                 + units.unit(units.END, number), units.END_ACK)

    def close(self):
        self.put(units.unit(units.CLOSE), units.CLOSE_ACK)
        self.link.close()
