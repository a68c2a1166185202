"""Reports the results of a script's checks in the form that tests/all.py reads, and the time that programs took."""
import resource


def report(checks):
    """Prints the name of each failed check, and last how many passed and failed. Returns the script's status: 1 if a check failed, else 0.

    `checks` has, by name, whether each check passed."""
    failed = [name for name, has_passed in checks.items() if not has_passed]
    for name in failed:
        print(f"FAILED: {name}")
    print(f"{len(checks) - len(failed)} passed, {len(failed)} failed")
    return 1 if failed else 0


def processor_seconds():
    """Returns how many seconds of a processor this script and the programs that it waited for have taken. A limit on them holds on a busy
    machine, too."""
    return sum(sum(resource.getrusage(it)[:2]) for it in (resource.RUSAGE_SELF, resource.RUSAGE_CHILDREN))
