"""The options that a recorder has beside those of all recorders."""

VALUED = ("-o", "--frames", "--convert")  # those of all recorders that take a value


def split_options(arguments, own):
    """The values of these own options, by their names, and the other words as they came; an option without a value is True.

    `own` says of each name whether it takes a value. Where its value is missing, that is None.
    """
    found, rest = {}, list(arguments)
    others = []
    while rest and rest[0].startswith("-") and rest[0] != "--":
        word = rest.pop(0)
        if word in own:
            found[word] = (rest.pop(0) if rest else None) if own[word] else True
            continue
        others.append(word)
        if word in VALUED and rest:
            others.append(rest.pop(0))
    return found, others + rest
