"""How many elements a second mta_ber reads, in definite and in indefinite lengths. User time, the best of seven runs.
"""
import tools

ELEMENTS = 5_600_020


def main():
    tools.machine()
    tools.prints(f"definite 1720005 octets {ELEMENTS} elements\nindefinite 1960004 octets {ELEMENTS} elements", "ber")
    for what in ("definite", "indefinite"):
        best, spread = tools.user_seconds("ber", what)
        print(f"{what}: {ELEMENTS / best / 1e6:.1f} million elements a second (spread {spread:.2f})", flush=True)


main()
