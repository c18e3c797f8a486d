"""mta-osi with octets that another maker's sender may put: an EXTERNAL of indefinite length, so that octets stand
behind the message, and an RTTR in segments, in a presentation data value that names its transfer syntax."""
import os
import runpy
import sys
from pathlib import Path

CONTRIB = Path(__file__).resolve().parents[2] / "contrib"
sys.path.insert(0, str(CONTRIB / "osi"))
import ber  # noqa: E402
import presentation  # noqa: E402
import primitives  # noqa: E402
import session  # noqa: E402

HEAD, TAIL = b"\x28\x80\2\1\5\xA0\x80", b"\0\0\0\0"


def wrapper(self, piece):
    return HEAD, TAIL


def data(self, octets):
    cut = len(octets) // 3
    segments = [ber.element(ber.OCTET_STRING, it) for it in (octets[:cut], octets[cut:2 * cut], octets[2 * cut:]) if it]
    string = b"\x24\x80" + b"".join(segments) + b"\0\0"
    syntax = ber.object_identifier(presentation.BASIC_ENCODING)
    values = ber.element(0x30, syntax, ber.integer(self.contexts.rtse), b"\xA0\x80" + string + b"\0\0")
    return session.data(b"\x61\x80" + values + b"\0\0")


primitives.NormalMode.wrapper = wrapper
primitives.NormalMode.data = data
sys.argv[0] = str(CONTRIB / "mta-osi")
os.environ.setdefault("PYTHONDONTWRITEBYTECODE", "1")
runpy.run_path(sys.argv[0], run_name="__main__")
