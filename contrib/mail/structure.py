"""How the parts of a mail stand within one another: the parts of an interpersonal message are a list.

A structure is written as a tree over the numbers of the parts, as related(alternative(1 2) 3). A list of more than one
is mixed(1 2 3), and is not written; nor is a single part.
"""
import re

FIELD = "X400-Structure"
MOST_DEEP = 30
SUBTYPE = re.compile(r"[a-z0-9.+-]{1,40}")


class Node:
    """A multipart of this subtype. Its children are nodes, and places in the list of parts, from 0."""

    def __init__(self, subtype, children):
        self.subtype, self.children = subtype, children


def places_of(node):
    """The places of the parts, in the order in which they stand."""
    if isinstance(node, int):
        return [node]
    return [place for child in node.children for place in places_of(child)]


def flat(count):
    """The structure of parts of which nothing is said."""
    return 0 if count == 1 else Node("mixed", list(range(count)))


def text_of(node):
    if isinstance(node, int):
        return str(node + 1)
    return f"{node.subtype}({' '.join(text_of(it) for it in node.children)})"


def is_flat(node, count):
    return text_of(node) == text_of(flat(count))


def _tree(pieces):
    """The node that these pieces are; ValueError where they are none."""
    root, open_ones = Node("", []), []
    open_ones.append(root)
    for piece in pieces:
        if piece == ")":
            open_ones.pop()
        elif piece.isdigit():
            open_ones[-1].children.append(int(piece) - 1)
        else:
            made = Node(piece[:-1], [])
            open_ones[-1].children.append(made)
            open_ones.append(made)
        if not open_ones or len(open_ones) > MOST_DEEP:
            raise ValueError
    if len(open_ones) != 1 or len(root.children) != 1:
        raise ValueError
    return root.children[0]


def structure_of(text, count):
    """The structure that a text is, of so many parts; a flat one where it is none, or of others."""
    pieces = re.findall(r"[a-z0-9.+-]+\(|\)|\d+", text)
    try:
        node = _tree(pieces)
    except (ValueError, IndexError):
        return flat(count)
    is_of_these = " ".join(text_of(node).split()) == " ".join(text.split()) and places_of(node) == list(range(count))
    return node if is_of_these else flat(count)
