"""What the checks share that look at one thing after another: what is wrong ends an attempt."""


class Wrong(Exception):
    """What is wrong with a program, or with what it answers."""


def want(holds, what):
    if not holds:
        raise Wrong(what)
