"""Counts cases, and prints a line for each that fails or is skipped and one for all."""


class Skipped(Exception):
    """Why a case can't be tried on this machine."""


def faults_of(case, *given):
    """What a case tells: its faults, or that it is skipped."""
    try:
        return case(*given) or []
    except Skipped as why:
        return why
    except Exception as what:  # A case that ends otherwise has failed, and the others go on.
        return [f"{type(what).__name__}: {what}"]


def counted(results):
    """Prints the names with their faults, and gives the exit status."""
    passed = failed = skipped = 0
    for name, faults in results:
        if isinstance(faults, Skipped):
            skipped += 1
            print(f"{name}: skipped, since {faults}", flush=True)
        elif faults:
            failed += 1
            print(f"{name}: {'; '.join(faults)}", flush=True)
        else:
            passed += 1
    print(f"{passed} passed, {failed} failed, {skipped} skipped")
    return 1 if failed else 0
