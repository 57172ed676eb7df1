"""How one of several values is chosen."""


def pick(source, *weighted):
    """One of the values, each as often as its weight says."""
    values, weights = zip(*weighted)
    return source.choices(values, weights)[0]
