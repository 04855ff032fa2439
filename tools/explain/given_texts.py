"""Files of a command that are texts where what `compile` wrote is to stand, said before the command runs."""
from explain import files, words as command_words


def is_text(data):
    """Whether bytes are a text that somebody wrote: no image of a user that has an instruction is one, since its words have zeros and high bytes."""
    return bool(data.strip()) and all(9 <= byte <= 13 or 32 <= byte < 127 for byte in data)


def said(words, tool):
    """The lines on each user of a `link` that is a text."""
    if words[:1] != ['link'] or command_words.fault(words):
        return []
    lines = []
    for place, name in enumerate(words):
        if place < 4:
            continue
        data = files.stored(name)
        if data and is_text(data[:65536]):
            kind = 'program' if name.endswith('.c0') else 'user'
            made = name.rpartition('.')[0] or name
            lines.append("cvm: word %d, '%s', is a text and no image of a user: '%s compile %s %s %s.img' makes one." % (place + 1, name, tool, kind, name, made))
    return lines
