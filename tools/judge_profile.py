#!/usr/bin/env python3
"""Judges a profile text by the rules of the format alone, and prints what is to be told of it.

Usage: judge_profile.py FILE

An accepted text is told slot by slot: the line `accepted`, a line `slot N MODE STATE TOP EVENT NEW` with the
symbols that the rule lists for each rule in ascending order, and the line `start STATE SYMBOL`. Of a text with a
fault the first one is told: `refusal N layer L place P`.

The rules:
- A text has at most 20,000 bytes (10 at place 0).
- Bytes 32 and 10 are blank. A word is a run of other bytes. Each of them is from 33 to 126 (11 at the byte),
  and there are at most 16 of them (12 at the word).
- The sections are `states`, `symbols`, `rules` and `start`, each a keyword, a count and that many entries. The counts
  are 1 to 8, 1 to 16, 0 to 96 and 1. Nothing follows. Another word where a keyword or a mode is due, or a word
  after the end, is 13 at the word; a missing word is 13 at the text's length.
- A count has one to four digits and no 0 in front of another (14 at the word, as when it is out of range).
- Names are numbered by position; a name twice in its section is 16 at the later one. A state, a symbol or an event
  that is not listed is 15 at the word.
- A rule is a mode, a state, a top symbol, an event, a new state and two, one or no symbols, as the event opens a
  window, leaves their number or closes one. A symbol that is not listed is 0. A rule listed before, the mode aside,
  is 17 at its first word.
- A text is judged word by word: a fault is told before anything after it is looked at.
"""
import re
import sys

OPEN = ["trigger", "calib", "upload", "service"]
STEP = ["sample", "gap", "resend", "clock"]
CLOSE = ["end", "caldone", "sent", "leave"]
EVENTS = OPEN + STEP + CLOSE

LAYER = {10: 1, 11: 1, 12: 1, 13: 2, 14: 2, 15: 3, 16: 3, 17: 3}

# A run of bytes between blanks.
RUN = re.compile(rb"[^ \n]+")
PLAIN = re.compile(rb"0|[1-9][0-9]{0,3}")


class Refused(Exception):
    """A text has a fault: its number and its place."""

    def __init__(self, number, place):
        super().__init__(number, place)
        self.number = number
        self.place = place


def words(text):
    """The words of a text with their places, each judged only when it is asked for."""
    for run in RUN.finditer(text):
        for offset, byte in enumerate(run.group()):
            if byte < 33 or byte > 126:
                raise Refused(11, run.start() + offset)
        if len(run.group()) > 16:
            raise Refused(12, run.start())
        yield run.group(), run.start()


class Judge:
    """Takes the words that are due, one after the other."""

    def __init__(self, text):
        self.length = len(text)
        self.words = words(text)

    def due(self):
        found = next(self.words, None)
        if found is None:
            raise Refused(13, self.length)
        return found

    def one_of(self, wanted):
        word, place = self.due()
        if word not in wanted:
            raise Refused(13, place)
        return word, place

    def count(self, heading, least, most):
        self.one_of([heading])
        word, place = self.due()
        if not PLAIN.fullmatch(word) or not least <= int(word) <= most:
            raise Refused(14, place)
        return int(word)

    def names(self, heading, most):
        listed = []
        for _ in range(self.count(heading, 1, most)):
            word, place = self.due()
            if word in listed:
                raise Refused(16, place)
            listed.append(word)
        return listed

    def number_in(self, listed):
        word, place = self.due()
        if word not in listed:
            raise Refused(15, place)
        return listed.index(word)

    def rule(self, states, symbols):
        mode, place = self.one_of([b"may", b"must"])
        state = self.number_in(states)
        top = self.number_in(symbols)
        event = self.number_in([name.encode() for name in EVENTS])
        new = self.number_in(states)
        width = 2 if EVENTS[event] in OPEN else 1 if EVENTS[event] in STEP else 0
        put = [self.number_in(symbols) for _ in range(width)]
        key = (state, top, event, new, *(put + [0, 0])[:2])
        return key, mode.decode(), put, place

    def nothing_more(self):
        for _, place in self.words:
            raise Refused(13, place)


def judged(text):
    """What is told of a text, line by line."""
    if len(text) > 20000:
        raise Refused(10, 0)
    judge = Judge(text)
    states = judge.names(b"states", 8)
    symbols = judge.names(b"symbols", 16)
    rules = {}
    for _ in range(judge.count(b"rules", 0, 96)):
        key, mode, put, place = judge.rule(states, symbols)
        if key in rules:
            raise Refused(17, place)
        rules[key] = mode, put
    judge.count(b"start", 1, 1)
    start = judge.number_in(states), judge.number_in(symbols)
    judge.nothing_more()
    lines = ["accepted"]
    for slot, key in enumerate(sorted(rules)):
        state, top, event, new = key[:4]
        mode, put = rules[key]
        told = ["slot", slot, mode, state, top, EVENTS[event], new, *put]
        lines.append(" ".join(str(part) for part in told))
    lines.append(f"start {start[0]} {start[1]}")
    return lines


def report(text):
    """The report on a text, as lint prints it."""
    try:
        lines = judged(text)
    except Refused as fault:
        lines = [f"refusal {fault.number} layer {LAYER[fault.number]} place {fault.place}"]
    return "".join(line + "\n" for line in lines)


def main():
    if len(sys.argv) != 2:
        sys.exit("usage: judge_profile.py FILE")
    with open(sys.argv[1], "rb") as file:
        text = file.read(20001)
    sys.stdout.write(report(text))


if __name__ == "__main__":
    main()
