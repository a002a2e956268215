"""The text of a sheet from its sections, with the line numbers that its last line has to say."""


def text_of(sections):
    lines = ["link sheet 1"]
    numbers = []
    for word, section in sections:
        numbers.append(len(lines) + 1)
        lines += [word] + section
    lines.append("back " + " ".join(map(str, numbers)))
    return "\n".join(lines) + "\n"
