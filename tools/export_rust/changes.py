"""Changes of copies of the sources, for those tools that try them."""


def replaced(text, old, new, path):
    """A text with another in the place of one that has to stand there once; ValueError where that stands there more often, or not
    at all. The path is for that."""
    if text.count(old) != 1:
        raise ValueError(f"{path} has {text.count(old)} times, not once: {old}")
    return text.replace(old, new)


def replace_once(path, old, new):
    """The same in a file. Gives what the file held."""
    with open(path, encoding="utf-8") as file:
        text = file.read()
    made = replaced(text, old, new, path)
    with open(path, "w", encoding="utf-8") as file:
        file.write(made)
    return text
