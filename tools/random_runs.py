"""The command line of the programs that judge a built `warnc` by random runs: PROGRAM [RUNS]."""
import os


def judged(name, document, words, differs, most):
    """Has a program run with the seeds below a number, and returns the status: 0 if no run differs.

    `differs` says of a program and a seed whether its run does, and prints how; `most` is the number of runs if none is
    given.
    """
    if words in (["-h"], ["--help"]):
        print(document, end="")
        return 0
    if len(words) not in (1, 2) or not os.access(words[0], os.X_OK) or not words[-1].isdigit() and len(words) == 2:
        print(document, end="")
        return 2
    runs = int(words[1]) if len(words) == 2 else most
    differing = sum(differs(words[0], seed) for seed in range(runs))
    print(f"{name}: {runs} runs, {differing} differ")
    return 1 if differing else 0
