"""Tries a check of the gate on made-up cases: the right ones have to pass and each wrong one has to fail."""
from typing import Any, Callable, Iterable


def tried(name: str, faults: Callable[[Any], Iterable[str]], right: list[Any], wrong: list[Any]) -> int:
    """The exit status. A case is what the check judges, and its faults are what the check says of it."""
    refused = [f'{name} refuses: {case}: {fault}' for case in right for fault in faults(case)]
    passed = [f'{name} passes: {case}' for case in wrong if not list(faults(case))]
    for line in refused + passed:
        print(line)
    if not refused + passed:
        print(f'{name}: {len(right)} right cases pass, {len(wrong)} wrong ones fail')
    return 1 if refused + passed else 0
