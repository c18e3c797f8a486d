"""O/R names and descriptors of X.420 as elements, with all that a name has: extension attributes are kept unread."""
import p1
import texts
import x690 as ber
from x690 import APPLICATION, CONTEXT, element, sequence, set_of, tagged

COMMON_NAME = 1
LONGEST_FREE_FORM, LONGEST_TELEPHONE = 64, 32


def tags(it):
    """The elements inside, by their tags."""
    return {each.tag: each for each in it.children()}


def name_octets(name):
    """The contents of an O/R name, the extension attributes that are kept unread among them."""
    named = p1.Name([it for it in name.parts if it[0] != "CN"])
    attributes = [sequence(ber.primitive(0, bytes([COMMON_NAME])), tagged(1, ber.printable(it)))
                  for it in name.all_of("CN")]
    attributes += [sequence(ber.integer(kind, (CONTEXT, 0)), octets) for kind, octets in name.unread if kind >= 0]
    others = b"".join(octets for kind, octets in name.unread if kind < 0)
    return p1.name_octets(named) + (set_of(*attributes) if attributes else b"") + others


def or_name(name):
    return element((APPLICATION, 0), name_octets(name), True)


def teletex(text):
    """A text as a TeletexString, as T.61 has it."""
    return element(ber.TELETEX_STRING, texts.teletex(text)[0])


def cut(text, most):
    """The beginning of a text whose TeletexString has at most so many octets."""
    while len(texts.teletex(text)[0]) > most:
        text = text[:min(most, len(text) - 1)]
    return text


class Descriptor:
    """An O/R descriptor: a formal name, a free-form one, a telephone number; None for what is absent."""

    def __init__(self, name=None, free=None, telephone=None):
        self.name, self.free, self.telephone = name, free, telephone

    def octets(self):
        """The contents."""
        formal = or_name(self.name) if self.name else b""
        free = ber.primitive(0, texts.teletex(cut(self.free, LONGEST_FREE_FORM))[0]) if self.free else b""
        telephone = ber.primitive(1, self.telephone.encode("ascii")) if self.telephone else b""
        return formal + free + telephone


def descriptor_of(it):
    found = tags(it)
    name = found.get((APPLICATION, 0))
    free, telephone = found.get((CONTEXT, 0)), found.get((CONTEXT, 1))
    return Descriptor(p1.name_of(name) if name is not None else None,
                      texts.of_teletex(free.octets()) if free is not None else None,
                      telephone.text() if telephone is not None else None)


class IpmIdentifier:
    """An IPM identifier: the user, where it has one, and the text that the user gave."""

    def __init__(self, local, user=None):
        self.local, self.user = local, user

    def octets(self):
        """The contents."""
        return (or_name(self.user) if self.user else b"") + ber.printable(self.local)

    def same(self):
        return self.local, self.user.normal() if self.user else None


def identifier_of(it):
    found = tags(it)
    user, local = found.get((APPLICATION, 0)), found.get(ber.PRINTABLE_STRING)
    return IpmIdentifier(local.text() if local is not None else "", p1.name_of(user) if user is not None else None)
