"""The lines that `mta decode` prints for an APDU, as far as Wireshark's dissector of P1 shows them: identifiers, names,
content types and outcomes of reports. Reads what `tshark -V` prints, and prints those lines."""
import sys

KEYS = {
    "network-address": "X121", "terminal-identifier": "TID", "organization-name": "O", "numeric-user-identifier": "UID",
    "surname": "S", "given-name": "G", "initials": "I", "generation-qualifier": "Q", "CommonName": "CN",
}
ORDER = ["C", "A", "P", "O", "OU", "S", "G", "I", "Q", "CN", "X121", "TID", "UID"]


class Node:
    def __init__(self, depth, text):
        self.depth, self.text, self.inside = depth, text, []
        key, _, value = text.partition(": ")
        self.key, self.value = key.split()[0] if key.split() else "", value

    def all(self):
        for node in self.inside:
            yield node
            yield from node.all()

    def find(self, key):
        return next((node for node in self.all() if node.key == key), None)


def tree(lines):
    root = Node(-1, "")
    open_nodes = [root]
    for line in lines:
        text = line.strip()
        if not text or text.startswith("["):
            continue
        node = Node(len(line) - len(line.lstrip()), text)
        while open_nodes[-1].depth >= node.depth:
            open_nodes.pop()
        open_nodes[-1].inside.append(node)
        open_nodes.append(node)
    return root


def name(node):
    parts, pairs = {}, []
    for n in node.all():
        if n.key in ("iso-3166-alpha2-code", "x121-dcc-code"):
            parts["C"] = n.value
        elif n.key == "administration-domain-name":
            parts["A"] = n.inside[0].value
        elif n.key in ("private-domain-name", "private-domain-identifier"):
            parts["P"] = n.inside[0].value
        elif n.key == "OrganizationalUnitName":
            parts.setdefault("OU", []).append(n.value)
        elif n.key == "BuiltInDomainDefinedAttribute":
            pairs.append((n.find("type").value, n.find("value").value))
        elif n.key in KEYS:
            parts[KEYS[n.key]] = n.value
    words = []
    for key in ORDER:
        value = parts.get(key, [])
        words += [f"{key}={v}" for v in ([value] if isinstance(value, str) else value)]
    return ";".join(words + [f"DDA:{kind}={value}" for kind, value in pairs])


def identifier(node):
    return f"{name(node)}/{node.find('local-identifier').value}"


def moment(text):
    day, time = text.split()[:2]
    return day.replace("-", "") + time.replace(":", "") + "Z"


def number(node):
    return node.value.rsplit("(", 1)[1].split(")")[0] if node.value.endswith(")") else node.value


def content_type(node):
    if node is None:
        return []
    inside = node.inside[0]
    if inside.key == "built-in":
        return [f"content-type {number(inside)}"]
    arcs = [int(arc) for arc in inside.value.split()[0].split(".")]
    octets = [40 * arcs[0] + arcs[1]] + arcs[2:]
    return ["content-type oid " + "".join(f"{octet:02x}" for octet in octets)]


def outcome(node):
    arrived = moment(node.find("arrival-time").value)
    delivered = node.find("message-delivery-time")
    if delivered:
        user = node.find("type-of-MTS-user")
        return f"delivery {moment(delivered.value)} {number(user) if user else 0} arrived {arrived}"
    diagnostic = node.find("non-delivery-diagnostic-code")
    reason = number(node.find("non-delivery-reason-code"))
    return f"non-delivery {reason} {number(diagnostic) if diagnostic else '-'} arrived {arrived}"


def message(root, word):
    yield f"{word} " + identifier(root.find(f"{word}-identifier"))
    yield "originator " + name(root.find("originator-name"))
    yield from content_type(root.find("content-type"))
    for node in root.all():
        if node.key in ("PerRecipientMessageTransferFields", "PerRecipientProbeTransferFields"):
            place = node.find("originally-specified-recipient-number").value
            yield f"recipient {place} {name(node.find('recipient-name'))}"


def report(root):
    yield "report " + identifier(root.find("report-identifier"))
    yield "destination " + name(root.find("report-destination-name"))
    yield "subject " + identifier(root.find("subject-identifier"))
    yield from content_type(root.find("content-type"))
    for node in root.all():
        if node.key == "PerRecipientReportTransferFields":
            which = node.find("originally-specified-recipient-number").value
            yield f"recipient {which} {outcome(node)} {name(node.find('actual-recipient-name'))}"


def main():
    lines = sys.stdin.read().split("\n")
    start = next(i for i, line in enumerate(lines) if line.startswith("X.411"))
    root = tree(lines[start:])
    kind = root.find("MTS-APDU").value.split()[0]
    for line in report(root) if kind == "report" else message(root, kind):
        print(line)


main()
