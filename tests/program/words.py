"""The words of a command line, as the program takes them from the machine."""
from runs import other

NOT_TEXT = b"error: a word is not UTF-8\nstatus 2\n"


def explained(number, word):
    return b"jcache: a word is not UTF-8\n  word %d is '%s'\nstatus 2\n" % (number, word)


def the_programs_name_is_no_word(program, _):
    version = program.run(["--version"]).text()
    for name in ("jcache", "--help", ""):
        ran = program.run(["--version"], name=name)
        yield from other(f"the name {name!r}", ran.text(), version)
        ran = program.run([], name=name)
        yield from other(f"the name {name!r} alone", ran.text(), b"cache a\ncache b\n")


def words_are_taken_as_they_are(program, _):
    for word in ("a b.toml", "é.toml"):
        program.write(word, b"")
        yield from other(f"the file {word}", program.run(["check", word]).text(), b"")
    unread = b"config: cannot be read\nstatus 1\n"
    yield from other("an empty word", program.run(["check", ""]).text(), unread)


def a_word_that_is_no_text_is_told(program, _):
    lines = (
        (b"jcache", (b"run", b"\xff"), NOT_TEXT),
        (b"jcache", (b"\xff", b"--explain=1"), NOT_TEXT),
        (b"jcache", (b"\xff", b"--explain"), explained(1, rb"\xff")),
        (b"\xff", (b"--explain",), NOT_TEXT),
        (b"\xff", (b"--explain", b"run", b"a\xed\xa0\x80 \xc3\xa9", b"\xff"), explained(3, "a\\xed\\xa0\\x80 é".encode())),
    )
    for name, words, wanted in lines:
        yield from other(f"{words}", program.run(words, name=name).text(), wanted)


def a_long_word_is_told_whole(program, _):
    ran = program.run([b"--explain", b"\xff" * 1000])
    yield from other("1,000 bytes", ran.text(), explained(2, rb"\xff" * 1000))


TESTS = (the_programs_name_is_no_word, words_are_taken_as_they_are, a_word_that_is_no_text_is_told, a_long_word_is_told_whole)
