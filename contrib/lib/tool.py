"""What the tools beside `mta` share: their words, and how they end."""
import argparse
import os
import signal
import sys

import x690 as ber
import journal
import state

SPOOL = "mta.spool"


def spool_path(word):
    """The path of a spool, which is named by itself or by its folder."""
    return os.path.join(word, SPOOL) if os.path.isdir(word) else word


def called(name):
    """The name by which a tool was called: it is installed under another one here and there."""
    return os.path.basename(sys.argv[0]) or name


def parser(name, text, **more):
    return argparse.ArgumentParser(prog=called(name), description=text,
                                   formatter_class=argparse.RawDescriptionHelpFormatter, **more)


def fail(name, text, status=2):
    print(f"{called(name)}: {text}", file=sys.stderr)
    sys.exit(status)


def run(name, main):
    """Runs a tool's main function. What it cannot read ends it with status 2 and one line on standard error."""
    signal.signal(signal.SIGPIPE, signal.SIG_DFL)
    try:
        main()
    except KeyboardInterrupt:
        sys.exit(130)
    except (journal.NotASpool, ber.Fault) as why:
        fail(name, why)
    except RecursionError:
        fail(name, "elements are nested too deep")
    except OSError as why:
        fail(name, f"{why.filename}: {why.strerror}" if why.filename else why)


def read_journal(path):
    """The journal of a spool that is there."""
    if not os.path.exists(path):
        raise FileNotFoundError(2, "no such spool", path)
    return journal.Journal(path)


def emptied(item):
    """What is said of an item without its content."""
    return f"the content of item {item.number} was dropped: the history begins with a snapshot, which has none of it"


def octets_of_item(path, wanted):
    """The item of a number, and the octets of its APDU: None where it was made here, since a spool has the octets of
    what it took alone, and of all that the snapshot has with which it begins. Neither where there is no such item."""
    now = state.State((wanted,))
    for word, fields in read_journal(path).steps():
        now.take(word, fields)
        if len(now.items) >= wanted:
            item = now.item(wanted)
            return item, item.octets
    return None, None
