"""Every part, and one line for all."""

import sys

import tally


def parts():
    # The modules are imported once the library is there.
    import bodies
    import cross
    import header
    import rooms
    import vectors

    return [*vectors.PARTS, *cross.PARTS, *bodies.PARTS, *rooms.PARTS, *header.PARTS]


if __name__ == "__main__":
    sys.exit(0 if tally.run(parts()) else 1)
