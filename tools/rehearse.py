#!/usr/bin/env python3
"""A second account of `rehearse`, written from its rules (docs/RULES.md).

It reads a schedule from standard input and prints what `rehearse` must print,
for the lines in operation: roster, votes, begin, vote, deliver and advance.
It shares no code with the product, so that equal output means something.

Only what a schedule can bring about stands here. No line in operation elects,
so every last elected number is 1, every lead is the first coordinator, no site
is down, and no message is of the kinds elected, report and preabort.
"""
import sys

LARGEST_INPUT = 65536   # bytes
PLACES = 4096           # messages the list can hold


class Unreadable(Exception):
    """Carries the first bad, missing or surplus field, counted from 1."""


class Refused(Exception):
    """Carries the number of the refusal."""


# ------------------------------------------------------------ reading lines

def number(field):
    """1 to 7 decimal digits; a leading 0 only if it is the whole number."""
    good = (1 <= len(field) <= 7
            and all(0x30 <= byte <= 0x39 for byte in field)
            and (field[0] != 0x30 or len(field) == 1))
    return int(field) if good else None


def answer(field):
    """The vote of a begin or vote line: yes is True, no is False."""
    return {b"yes": True, b"no": False}.get(field)


CALLS = {b"begin": [answer], b"vote": [number, answer],
         b"deliver": [number], b"advance": [number]}


def read(line, words):
    """The word and values of a line whose word is one of `words`, a table of
    the readers of the further fields."""
    fields = line.split(b",")             # a blank line is one empty field
    if fields[0] not in words:
        raise Unreadable(1)
    readers = words[fields[0]]
    values = []
    for place, reader in enumerate(readers, start=2):
        if place > len(fields):
            raise Unreadable(place)       # missing
        value = reader(fields[place - 1])
        if value is None:
            raise Unreadable(place)       # bad
        values.append(value)
    if len(fields) > len(readers) + 1:
        raise Unreadable(len(readers) + 2)   # surplus
    return fields[0], values


# ------------------------------------------------------------------ the net

def check_roster(sites, first):
    if not 2 <= sites <= 16 or first >= sites:
        raise Refused(2)


def check_votes(commit_from, abort_from, votes):
    total = sum(votes)
    if (any(vote > 15 for vote in votes)
            or not 1 <= commit_from <= total or not 1 <= abort_from <= total):
        raise Refused(3)
    if commit_from + abort_from <= total:
        raise Refused(4)


class Record:
    def __init__(self, lead):
        self.state, self.elected, self.attempt, self.lead = "q", 1, 0, lead

    def decided(self):
        return self.state in "ca"


class Polling:
    def __init__(self, site):
        self.yes, self.no = {site}, False


class Attempting:
    """An attempt to commit; its group is all sites."""
    def __init__(self, site):
        self.acknowledged = {site}


class Net:
    def __init__(self, sites, first, commit_from, votes):
        self.first, self.commit_from, self.votes = first, commit_from, votes
        self.records = [Record(first) for _ in range(sites)]
        self.roles = [None] * sites
        self.list = []                    # (kind, number, sender, receiver)

    # Every call makes all its checks before its first change.

    def room(self, messages):
        if len(self.list) + messages > PLACES:
            raise Refused(14)

    def send(self, kind, sender, receiver):
        self.list.append((kind, self.records[sender].elected, sender, receiver))

    def send_others(self, kind, sender):
        for receiver in range(len(self.records)):
            if receiver != sender:
                self.send(kind, sender, receiver)

    def message(self, place):
        if place >= len(self.list):
            raise Refused(7)
        return self.list[place]

    def match(self, number, receiver, coordinator):
        record = self.records[receiver]
        if record.elected != number or record.lead != coordinator:
            raise Refused(10)

    def begin(self, yes):
        record = self.records[self.first]
        if record.elected > 1:
            raise Refused(10)
        if record.state != "q":
            raise Refused(11)
        self.room(len(self.records) - 1)
        if yes:
            record.state = "w"
            self.roles[self.first] = Polling(self.first)
            self.send_others("start", self.first)
        else:
            record.state, record.attempt = "a", 1
            self.send_others("abort", self.first)

    def vote(self, place, yes):
        kind, number, sender, receiver = self.message(place)
        if kind != "start":
            raise Refused(8)
        self.match(number, receiver, sender)
        record = self.records[receiver]
        if record.state != "q":
            raise Refused(11)
        self.room(1)
        record.state = "w" if yes else "a"
        self.send("yes" if yes else "no", receiver, sender)

    def deliver(self, place):
        kind, number, sender, receiver = self.message(place)
        if kind == "start":
            raise Refused(8)
        record, role = self.records[receiver], self.roles[receiver]
        if kind in ("yes", "no", "ack"):          # counted, nothing recorded
            self.match(number, receiver, receiver)
            if not isinstance(role, Attempting if kind == "ack" else Polling):
                raise Refused(11)
            if kind == "yes":
                role.yes.add(sender)
            elif kind == "no":
                role.no = True
            else:
                role.acknowledged.add(sender)
        else:
            self.match(number, receiver, sender)
            if record.decided():
                raise Refused(11)
            if kind == "precommit":
                if record.attempt >= number:
                    raise Refused(11)
                self.room(1)
                record.state, record.attempt = "p", number
                self.send("ack", receiver, sender)
            else:                                 # commit or abort
                record.state = {"commit": "c", "abort": "a"}[kind]

    def advance(self, site):
        if site >= len(self.records):
            raise Refused(6)
        record, role = self.records[site], self.roles[site]
        if role is None:
            raise Refused(11)
        if isinstance(role, Polling):
            if role.no:
                step = "abort"
            elif len(role.yes) == len(self.records):
                step = "precommit"
            else:
                raise Refused(12)
        else:
            if sum(self.votes[s] for s in role.acknowledged) < self.commit_from:
                raise Refused(12)
            step = "commit"
        self.room(len(self.records) - 1)
        record.attempt = record.elected
        record.state = {"precommit": "p", "commit": "c", "abort": "a"}[step]
        self.roles[site] = Attempting(site) if step == "precommit" else None
        self.send_others(step, site)


# -------------------------------------------------------------- the program

def rehearse(text):
    """The lines printed for a schedule."""
    if len(text) > LARGEST_INPUT:
        return ["0,1,0"]
    lines = text.split(b"\n")
    if lines[-1] == b"":      # the last newline ends a line and begins none,
        lines.pop()           # and an empty input has no line
    printed, net, sites = [], None, 0
    for place, line in enumerate(lines, start=1):
        try:
            if place == 1:
                _, (sites, first) = read(line, {b"roster": [number, number]})
                check_roster(sites, first)
            elif place == 2:
                _, values = read(line, {b"votes": [number] * (2 + sites)})
                check_votes(values[0], values[1], values[2:])
                net = Net(sites, first, values[0], values[2:])
            else:
                word, values = read(line, CALLS)
                getattr(net, word.decode())(*values)
            printed.append(f"{place},0")
        except Unreadable as bad:
            printed.append(f"{place},1,{bad}")
        except Refused as refusal:
            printed.append(f"{place},{refusal}")
        if place <= 2 and printed[-1] != f"{place},0":
            return printed    # no roster or no policy: no sites to print
    if net is not None:
        for site, r in enumerate(net.records):
            printed.append(f"{site},{r.state},{r.elected},{r.attempt},{r.lead}")
    return printed


def main():
    try:
        with open(0, "rb", closefd=False) as source:    # standard input
            text = source.read(LARGEST_INPUT + 1)
        printed = "".join(line + "\n" for line in rehearse(text))
    except (OSError, MemoryError) as error:
        print(f"rehearse: {error or 'out of memory'}", file=sys.stderr)
        return 1
    sys.stdout.write(printed)
    return 0              # whatever lines were refused


if __name__ == "__main__":
    sys.exit(main())
