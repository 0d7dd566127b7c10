"""Parts of cases, and the one line that counts them.

A part is a name, the number of its cases, and a function that yields once after each case that passed.
"""


class Differs(Exception):
    """The library answered something else than what was wanted."""


class Missing(Exception):
    """Something that a part needs isn't on this machine."""


def same(got, wanted, *case):
    """Raises where the two differ. Not an assert, which Python leaves out where it is told to."""
    if got != wanted:
        raise Differs(f"{case}: {got!r} for {wanted!r}")


def run(parts):
    """Runs every part and prints the counts. True where nothing differed."""
    passed = failed = skipped = 0
    for name, planned, cases in parts:
        count = 0
        try:
            for _ in cases():
                count += 1
            same(count, planned, "cases in all")
            told = f"{count} passed"
        except Missing as why:
            skipped += planned - count
            told = f"{count} passed, {planned - count} skipped, since there is no {why}"
        except Differs as what:
            failed += 1
            told = f"{count} passed, then it differs: {what}"
        passed += count
        print(f"{name}: {told}", flush=True)
    print(f"{passed} passed, {failed} failed, {skipped} skipped")
    return failed == 0
