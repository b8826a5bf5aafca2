"""Changes of texts: of bytes, words and lines."""

KEYWORDS = (
    b"sup history permanent transient temporary worker supervisor significant plain never any all start exit retry terminate"
    b" stop which count terminate_id delete_child restart_child running ignore failed fail normal shutdown"
).split()
NUMBERS = (
    b"0 1 2 3 4 5 6 7 9 10 1000 1001 86400 86401 65536 65537 4294967295 4294967296 18446744073709551615"
    b" 18446744073709551616 99999999999999999999 184467440737095516150 00 01 -1 +1 1. 0x1"
).split() + [b"9" * 5000]
TEXTS = b"x shutdown: shutdown:x gap:0:9 gap:1:5 gap:0:18446744073709551615 gap:0:18446744073709551616".split() + [
    b"", b"t" * 40, b"t" * 41, b"shutdown:" + b"t" * 40, b"shutdown:" + b"t" * 41
]
BYTES = b" \n\r\t\0019aZ:-_~!\x00\x1f\x20\x21\x7e\x7f\x80\xc3\xff"
ENDS = [b"\r", b" ", b"\t", b"\0", b" x", b" 1"]


def damaged_line(rng, line):
    """One line with a change of a byte or a word. It may be one that the format has."""
    return rng.choice(OF_LINES)(rng, line)


def mutated(rng, text, other):
    """The text after one to five changes; the other text lends lines."""
    for _ in range(rng.choice([1, 1, 1, 2, 2, 3, 5])):
        which = rng.random()
        if which < 0.25:
            text = rng.choice([byte_changed, byte_put_in, bytes_taken_out])(rng, text)
        elif which < 0.7:
            lines = text.split(b"\n")
            place = rng.randrange(len(lines))
            lines[place] = damaged_line(rng, lines[place])
            text = b"\n".join(lines)
        elif which < 0.95:
            text = lines_changed(rng, text, other)
        else:
            text = rng.choice([cut, without_end, with_more_end])(rng, text)
    return text


# Bytes


def any_byte(rng):
    return bytes([rng.choice(BYTES) if rng.random() < 0.7 else rng.randrange(256)])


def byte_changed(rng, text):
    place = rng.randrange(len(text) + 1)
    return text[:place] + any_byte(rng) + text[place + 1 :]


def byte_put_in(rng, text):
    place = rng.randrange(len(text) + 1)
    return text[:place] + any_byte(rng) * rng.choice([1, 1, 1, 2, 40]) + text[place:]


def bytes_taken_out(rng, text):
    place = rng.randrange(len(text) + 1)
    return text[:place] + text[place + rng.choice([1, 1, 1, 2, 5]) :]


# Words of a line


def any_word(rng):
    return rng.choice(rng.choice([KEYWORDS, NUMBERS, TEXTS]))


def word_changed(rng, line):
    words = line.split(b" ")
    words[rng.randrange(len(words))] = any_word(rng)
    return b" ".join(words)


def number_changed(rng, line):
    """Another number, at a limit or spelt otherwise, or the next one, in place of one."""
    words = line.split(b" ")
    places = [it for it, word in enumerate(words) if word.isdigit()] or [0]
    place = rng.choice([*places, places[-1]])
    is_next = words[place].isdigit() and len(words[place]) <= 20 and rng.random() < 0.5
    words[place] = b"%d" % (int(words[place]) + 1) if is_next else rng.choice(NUMBERS)
    return b" ".join(words)


def text_changed(rng, line):
    """Another text in place of one that is none of the formats' own words and no number."""
    words = line.split(b" ")
    places = [it for it, word in enumerate(words) if not word.isdigit() and word not in KEYWORDS] or [-1]
    words[rng.choice(places)] = rng.choice(TEXTS)
    return b" ".join(words)


def words_swapped(rng, line):
    words = line.split(b" ")
    one, two = rng.randrange(len(words)), rng.randrange(len(words))
    words[one], words[two] = words[two], words[one]
    return b" ".join(words)


def word_put_in(rng, line):
    words = line.split(b" ")
    words.insert(rng.randrange(len(words) + 1), rng.choice([*words, any_word(rng)]))
    return b" ".join(words)


def word_taken_out(rng, line):
    words = line.split(b" ")
    del words[rng.randrange(len(words))]
    return b" ".join(words)


def end_put_to(rng, line):
    return line + rng.choice(ENDS)


OF_LINES = [byte_changed, byte_put_in, bytes_taken_out, word_changed, number_changed, number_changed, text_changed, words_swapped,
            word_put_in, word_taken_out, end_put_to]

# Lines and ends


def lines_changed(rng, text, other):
    lines = text.split(b"\n")
    place = rng.randrange(len(lines))
    how = rng.randrange(5)
    if how == 0:
        del lines[place]
    elif how == 1:
        lines.insert(place, lines[rng.randrange(len(lines))])
    elif how == 2:
        two = rng.randrange(len(lines))
        lines[place], lines[two] = lines[two], lines[place]
    elif how == 3:
        lines.insert(place, rng.choice(other.split(b"\n")))
    else:
        lines[place : place + 2] = [rng.choice([b"", b" "]).join(lines[place : place + 2])]
    return b"\n".join(lines)


def cut(rng, text):
    return text[: rng.randrange(len(text) + 1)]


def without_end(_rng, text):
    return text[:-1]


def with_more_end(rng, text):
    return text + rng.choice([b"\n", b"\n\n", b" ", b"\r\n", b"\0", any_byte(rng)])
