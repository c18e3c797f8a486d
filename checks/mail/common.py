"""What the checks of the gateway share: its modules, a table, and how a difference is told."""
import os
import sys

TOP = os.path.dirname(os.path.dirname(os.path.dirname(os.path.abspath(__file__))))
sys.path[:0] = [f"{TOP}/contrib", f"{TOP}/contrib/lib"]
from mail import addresses, table  # noqa: E402

TABLE = """# the gateway of these checks
gateway x400.example
prefix C=GB;A=GOLD;P=MAIL
postmaster root@example.org
user root root@example.org C=GB;A=GOLD;P=MAIL;S=POSTMASTER
user bell bell@example.org C=GB;A=GOLD;S=BELL
user anna anna.long-name_with.parts@example.org
equivalent morse@silver.example C=US;A=SILVER;S=MORSE
domain acme.example C=GB;A=GOLD;O=ACME;OU=LAB
via far.example C=US;A=SILVER;P=MAIL
"""


class Wrong(Exception):
    pass


def want(what, got, wanted):
    if got != wanted:
        raise Wrong(f"{what}:\n{got!r}\nwhere this is wanted:\n{wanted!r}")


def the_table(text=TABLE):
    return table.table_of(text, addresses.name_of_address)
