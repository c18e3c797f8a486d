"""What is told of a step: as words of a line, and as an object for JSON.

A step is told with the state that it leaves, and what `State.take` says that it meant. Besides the steps of a spool
there are three words of what was seen beside them: `spool`, where another spool begins; `gap`, where steps are missing
between what was told and what is there; and `refused-calls`, of calls that left no step.
"""
import journal

# fields of a step that are told as they are
COUNTS = ("generation", "activity", "checkpoint", "piece", "size", "window", "fault")

# steps that a session makes for each piece or of each lane, which --brief leaves out
SMALL = ("agree", "confirm", "ending", "secure")


def item_words(item):
    return [f"item {item.number}", item.apdu.kind, item.apdu.identifier]


def names_of(meant):
    return [meant["item"].apdu.recipients[at - 1].name.text() for at in meant.get("recipients", ())]


def made_words(made):
    for item in made:
        yield f"makes {item.apdu.kind} {item.number} for {', '.join(it.name.text() for it in item.apdu.recipients)}"


def taken_words(apdu):
    """Of an APDU that was taken: from whom and to whom, or of what a report is."""
    if apdu.kind == "report":
        return [f"on {apdu.subject}", f"to {apdu.originator.text()}"]
    return [f"from {apdu.originator.text()}", *(f"to {it.name.text()}" for it in apdu.recipients)]


def counts_of(now, fields):
    """What a snapshot has."""
    return {"format": fields["format"], "tables": len(fields["texts"]), "items": len(fields["items"]),
            "pending": len(now.pending()), "deliveries": len(fields["deliveries"]), "lanes": len(fields["lanes"]),
            "opened": fields["opened"]}


def agent_words(now):
    return [f"agent {now.tables.name}", f"domain {now.tables.domain}"] if now.tables.name else []


def words_on_all(now, word, fields):
    """Of a step that is about no item and no lane."""
    if word == "tables":
        return [f"{len(fields['text'])} octets", *agent_words(now)]
    if word == "snapshot":
        return [f"{key} {count}" for key, count in counts_of(now, fields).items()] + agent_words(now)
    return [str(fields["format"])] if word == "format" else []


def words_of(now, word, fields, meant):
    """The words of a step behind its moment."""
    words = [word, *words_on_all(now, word, fields)]
    lane = meant.get("lane")
    if lane is not None:
        words += [f"lane {lane.number}", "out" if lane.is_caller else "in", lane.peer]
        words += [f"{key} {fields[key]}" for key in COUNTS if key in fields]
    item = meant.get("item")
    if item is not None:
        words += item_words(item)
        words += [f"recipient {at} {name}" for at, name in zip(meant["recipients"], names_of(meant))]
    if "mailbox" in meant:
        words.append(f"mailbox {meant['mailbox']()}")
    if word in ("accept", "complete"):
        words += taken_words(item.apdu)
    return " ".join(words + list(made_words([it for it in meant["made"] if it is not item])))


def moment_of(now):
    return journal.moment_text(now.moment) if now.moment else None


def line_of(now, word, fields, meant):
    return f"{moment_of(now) or '-'} {words_of(now, word, fields, meant)}"


def told(item):
    apdu = item.apdu
    said = {"item": item.number, "kind": apdu.kind, "identifier": apdu.identifier}
    said["destination" if apdu.kind == "report" else "originator"] = apdu.originator.text()
    if apdu.subject:
        said["subject"] = apdu.subject
    return said


def made_told(item):
    return {**told(item), "to": [it.name.text() for it in item.apdu.recipients]}


def status_told(status):
    """A recipient's status, with the moment, the peer, and the reason and diagnostic, where it has them."""
    said = {"status": status[0]}
    if status[0] == "sent":
        said["peer"] = status[2]
    if status[0] == "reported" and len(status) > 2:
        said.update(reason=status[2], diagnostic=status[3])
    return said


def recipients_told(meant):
    """The recipients of a step, with what became of each by then."""
    item = meant["item"]
    return [{"position": at, "name": name, **status_told(item.statuses[at - 1] or ("settled",))}
            for at, name in zip(meant["recipients"], names_of(meant))]


def object_of(now, word, fields, meant):
    said = {"moment": moment_of(now), "own_moment": "moment" in fields, "agent": now.tables.name, "step": word}
    if word == "snapshot":
        said.update(counts_of(now, fields))
    if word == "format":
        said["format"] = fields["format"]
    lane, item = meant.get("lane"), meant.get("item")
    if lane is not None:
        said.update(lane=lane.number, role="out" if lane.is_caller else "in", peer=lane.peer)
        said.update({key: fields[key] for key in COUNTS if key in fields})
    if item is not None:
        said.update(told(item), recipients=recipients_told(meant))
        if word in ("accept", "complete"):
            said["to"] = [it.name.text() for it in item.apdu.recipients]
    if "mailbox" in meant:
        said["mailbox"] = meant["mailbox"]()
    said["made"] = [made_told(it) for it in meant["made"] if it is not item]
    return said
