#!/usr/bin/env python3
"""Checks the answer of `corbelnib judge --json` on standard input by the rules of play in docs/SCOPE.md, and by nothing else of this
project: legal.py BOARD, where BOARD is a file with a hand as players write it, a line for each column.

Each record has to be a legal move, each move on paper has to mean its record, and the last board has to be won.
Prints the number of moves; a mistake is told, and the status is 1."""
import json
import sys

VALUES, SUITS = "A23456789TJQK", "CDHS"
CELLS = "abcd"


class Illegal(Exception):
    pass


def need(held, why):
    if not held:
        raise Illegal(why)


def code(card):
    """A card's code: value * 16 + suit."""
    return (VALUES.index(card[0]) + 1) * 16 + SUITS.index(card[1])


def follows(below, above):
    """Whether a card may lie on another: one less, and the other colour."""
    red = [c[1] in "DH" for c in (below, above)]
    return VALUES.index(below[0]) == VALUES.index(above[0]) + 1 and red[0] != red[1]


class Table:
    def __init__(self, text):
        self.columns = [line.split() for line in text.splitlines()]
        self.cells = [None] * 4
        self.home = {suit: 0 for suit in SUITS}
        need(len(self.columns) == 8, "eight columns")
        need(sorted(c for k in self.columns for c in k) == sorted(v + s for v in VALUES for s in SUITS), "52 cards")

    def run(self, column):
        """How many cards on top are a run."""
        cards = self.columns[column]
        length = min(1, len(cards))
        while length < len(cards) and follows(cards[-length - 1], cards[-length]):
            length += 1
        return length

    def most(self, to):
        """The most cards moved at once."""
        empty = sum(not c for c in self.columns) - (not self.columns[to])
        return (self.cells.count(None) + 1) * 2**empty

    def fits(self, card, to):
        return not self.columns[to] or follows(self.columns[to][-1], card)

    def take(self, kind, origin, count):
        if kind in (4, 5):
            card, self.cells[origin] = self.cells[origin], None
            need(card, "an empty cell")
            return [card]
        if kind == 6:
            suit = SUITS[origin]
            need(self.home[suit] > 0, "an empty foundation")
            self.home[suit] -= 1
            return [VALUES[self.home[suit]] + suit]
        need(1 <= count <= len(self.columns[origin]), "as many cards as lie there")
        cards = self.columns[origin][-count:]
        del self.columns[origin][-count:]
        return cards

    def lay(self, kind, to, cards):
        if kind in (1, 4, 6):
            need(self.fits(cards[0], to), "a card that fits")
            self.columns[to] += cards
        elif kind == 3:
            need(self.cells[to] is None, "an empty cell to lay on")
            self.cells[to] = cards[0]
        else:
            value, suit = cards[0]
            need(SUITS[to] == suit and VALUES.index(value) == self.home[suit], "the next card of its suit")
            self.home[suit] += 1

    def play(self, record):
        kind, origin, to, count, deepest = record
        need(kind in range(1, 7), "a kind")
        if kind == 1:
            need(origin != to, "two columns")
            need(count <= self.most(to), "no more cards than may go at once")
            need(count <= self.run(origin), "a run")
        else:
            need(count == 1, "one card")
        cards = self.take(kind, origin, count)
        need(code(cards[0]) == deepest, "the card that is named")
        self.lay(kind, to, cards)

    def won(self):
        return all(count == 13 for count in self.home.values())

    def written(self, record):
        """The move as players write it, on the table before it; None for a card from home."""
        kind, origin, to, count, _ = record
        if kind == 6:
            return None
        source = CELLS[origin] if kind in (4, 5) else str(origin + 1)
        target = "h" if kind in (2, 5) else CELLS[to] if kind == 3 else str(to + 1)
        fewer = kind == 1 and not self.columns[to] and count < min(self.most(to), self.run(origin))
        return source + target + (f"v{count:x}" if fewer else "")


def check(table, answer):
    papers = []
    for place, move in enumerate(answer["list"], 1):
        try:
            paper = table.written(move["record"])
            table.play(move["record"])
            need(move["paper"] == paper, f"{paper} on paper")
        except Illegal as why:
            return f"move {place}, {move['record']}: {why} is expected"
        papers.append(paper)
    if answer["line"] != (None if None in papers else " ".join(papers)):
        return "the line is not that of the list"
    return None if table.won() else "the last board is not won"


def main():
    with open(sys.argv[1], encoding="ascii") as file:
        table = Table(file.read())
    answer = json.load(sys.stdin)
    wrong = check(table, answer)
    print(wrong or len(answer["list"]))
    return 1 if wrong else 0


if __name__ == "__main__":
    sys.exit(main())
