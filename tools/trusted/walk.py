"""What a definition reaches: itself, the definitions that it uses, and what these reach."""


def used_by(definition, files):
    """The definitions of the repository that this one names. Those of the libraries are not followed."""
    file, words = definition.file, definition.words()
    words |= {word for word in {*file.definitions, *file.brought} if "◌" in word and definition.names(word)}
    for word in words:
        path, name = file.brought.get(word, (None, word))
        found = files[path].defining(name) if path in files else file.defining(word)
        if found:
            yield found


def reached_from(root, files):
    """All that a definition reaches, in order of file and line."""
    seen, left = set(), [root]
    while left:
        one = left.pop()
        if one not in seen:
            seen.add(one)
            left += used_by(one, files)
    return sorted(seen, key=lambda it: (it.file.path, it.first))
