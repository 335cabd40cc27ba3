#!/usr/bin/env python3
"""A settlement engine of another make, to compare answers with.

Reads a journal on standard input and writes the answers to standard output, as
docs/RULES.md says; titles in quotes are the titles of its sections.

It keeps no running figures. A book is the list of its accepted entries, and positions,
readings, cash, states and amounts are counted from that list whenever they are asked
for, as in "Histories". What an entry would bring about is seen by counting over the
list with the entry added.

Needs Python 3.10 and nothing beside it.
"""

from __future__ import annotations

import argparse
import math
import re
import sys
from collections.abc import Callable, Iterable, Iterator, Sequence
from dataclasses import dataclass, fields
from enum import IntEnum
from functools import cache, cached_property
from types import UnionType

HOURS = range(1, 25)
MOST_PARTIES = 20
MOST_DAYS = 62
MOST_KWH = 499_999
MOST_CASH = 10**17
MOST_BYTES = 200
LAST_LINE_NUMBER = 999_999_999


# Forms: "Entries", "The journal's form"


class Form:
    """One line that makes sense; a field's name is its word, `from_` standing for `from`."""

    @classmethod
    def words(cls) -> list[str]:
        """The words of the fields, in order."""
        return [field.name.rstrip("_") for field in fields(cls)]

    @property
    def parties_named(self) -> list[int]:
        """The parties that the form names, the seller before the buyer."""
        names = ("party", "seller", "buyer")
        return [getattr(self, name) for name in names if hasattr(self, name)]


class Ranged:
    """A form that concerns each hour from `from` to `to`."""

    from_: int
    to: int

    @property
    def hours(self) -> range:
        """The hours concerned, both ends included."""
        return range(self.from_, self.to + 1)


@dataclass(frozen=True)
class Book(Form):
    """Opens the journal's book; afterwards it tells the book's size and its two rules."""

    parties: int
    days: int
    pricing: int
    default: int
    sharing: int


@dataclass(frozen=True)
class Show(Form):
    """Asks for a party's statement."""

    party: int


@dataclass(frozen=True)
class Deposit(Form):
    """Adds to a party's cash."""

    party: int
    haler: int


@dataclass(frozen=True)
class Withdraw(Form):
    """Takes from a party's cash."""

    party: int
    haler: int


@dataclass(frozen=True)
class Register(Form, Ranged):
    """A trade that moves no cash."""

    day: int
    from_: int
    to: int
    seller: int
    buyer: int
    kwh: int


@dataclass(frozen=True)
class Market(Form, Ranged):
    """A trade paid at once."""

    day: int
    from_: int
    to: int
    seller: int
    buyer: int
    kwh: int
    price: int

    @property
    def haler(self) -> int:
        """What goes from the buyer's cash to the seller's."""
        return len(self.hours) * self.kwh * self.price // 10  # kwh is a multiple of 100


@dataclass(frozen=True)
class Close(Form):
    """Ends trading for a day."""

    day: int


@dataclass(frozen=True)
class Regulate(Form):
    """A regulating delivery, upward if kwh is positive."""

    day: int
    hour: int
    party: int
    kwh: int
    price: int


@dataclass(frozen=True)
class Meter(Form, Ranged):
    """Readings of one party, replacing any former ones."""

    day: int
    from_: int
    to: int
    party: int
    kwh: int


@dataclass(frozen=True)
class Evaluate(Form):
    """Evaluates a day and moves it one state on."""

    day: int
    stage: int


Trade = Register | Market
Entry = Deposit | Withdraw | Trade | Close | Regulate | Meter | Evaluate

HEADS: dict[str, type[Form]] = {
    "book": Book,
    "show": Show,
    "deposit": Deposit,
    "withdraw": Withdraw,
    "register": Register,
    "market": Market,
    "close": Close,
    "regulate": Regulate,
    "meter": Meter,
    "evaluate": Evaluate,
}


class State(IntEnum):
    """The states of a day."""

    OPEN = 0
    CLOSED = 1
    DAILY = 2
    MONTHLY = 3
    FINAL = 4


# Pricing and sharing: "Rounding", "Pricing rules", "Sharing rules"


def nearest(dividend: int, divisor: int) -> int:
    """The whole number nearest to the quotient, halves away from 0."""
    magnitude = (2 * abs(dividend) + divisor) // (2 * divisor)
    return magnitude if dividend >= 0 else -magnitude


@dataclass(frozen=True)
class Side:
    """What all parties together delivered in one direction of an hour."""

    kwh: int
    tenths: int
    extreme: int


@dataclass(frozen=True)
class Record:
    """The hour record; a direction in which nothing was delivered is None."""

    upward: Side | None
    downward: Side | None


def side(deliveries: Sequence[Regulate], extreme: Callable[[Iterable[int]], int]) -> Side | None:
    """The deliveries of one direction taken together."""
    if not deliveries:
        return None
    return Side(
        kwh=sum(abs(delivery.kwh) for delivery in deliveries),
        tenths=sum(abs(delivery.kwh) * delivery.price for delivery in deliveries),
        extreme=extreme(delivery.price for delivery in deliveries),
    )


def record_of(deliveries: Sequence[Regulate]) -> Record:
    """The record of the deliveries of one hour."""
    return Record(
        upward=side([delivery for delivery in deliveries if delivery.kwh > 0], max),
        downward=side([delivery for delivery in deliveries if delivery.kwh < 0], min),
    )


def regulating_prices(system: int, record: Record, default: int) -> tuple[int, int]:
    """Long and short price of "Pricing 1: regulating" for a system imbalance."""
    delivered = record.upward if system <= 0 else record.downward
    if delivered is None:
        return default, default
    main = delivered.extreme
    average = nearest(delivered.tenths, delivered.kwh)
    if system < 0:
        return average, main
    if system == 0:
        return main, main
    return main, average


# Greatest magnitude of the system imbalance, price at or below 0, price above 0.
LADDER = (
    (50_000, 3_000, 1_200),
    (200_000, 4_500, 600),
    (500_000, 6_000, 0),
    (math.inf, 9_000, -500),
)


def ladder_prices(system: int) -> tuple[int, int]:
    """Long and short price of "Pricing 2: ladder" for a system imbalance."""
    rung = next(rung for rung in LADDER if abs(system) <= rung[0])
    price = rung[1] if system <= 0 else rung[2]
    return price, price


def prices(book: Book, system: int, record: Record) -> tuple[int, int]:
    """Long and short price by the book's pricing rule."""
    if book.pricing == 1:
        return regulating_prices(system, record, book.default)
    return ladder_prices(system)


def running_parts(magnitude: int, weights: Sequence[int]) -> list[int]:
    """Parts of "Sharing 1: running", before the sign."""
    total = sum(weights)
    reached = [magnitude * sum(weights[:count]) // total for count in range(len(weights) + 1)]
    return [after - before for before, after in zip(reached, reached[1:])]


def largest_remainder_parts(magnitude: int, weights: Sequence[int]) -> list[int]:
    """Parts of "Sharing 2: largest remainder", before the sign."""
    total = sum(weights)
    parts = [magnitude * weight // total for weight in weights]
    remainders = [magnitude * weight % total for weight in weights]
    order = sorted(range(len(weights)), key=lambda place: (-remainders[place], place))
    for place in order[: magnitude - sum(parts)]:
        parts[place] += 1
    return parts


def shared(book: Book, remainder: int, weights: Sequence[int]) -> list[int]:
    """The remainder split by the book's sharing rule, over weights that are not all 0."""
    rule = running_parts if book.sharing == 1 else largest_remainder_parts
    sign = 1 if remainder >= 0 else -1
    return [sign * part for part in rule(abs(remainder), weights)]


# Figures: "Histories", "One hour, evaluated", "Cover"


def cover_prices(hour: int) -> tuple[int, int]:
    """The parametric prices of an hour, short and long."""
    if hour <= 6:
        return 2_400, 600
    if hour <= 8:
        return 3_600, 700
    if hour <= 20:
        return 4_500, 900
    return 3_000, 700


@dataclass(frozen=True, eq=False)
class History:
    """The accepted entries of a book, as the latest one and the history before it.

    A history is never altered: an entry accepted makes a new one.
    """

    book: Book
    before: History | None = None
    entry: Entry | None = None

    def then(self, entry: Entry) -> History:
        """This history with one more entry."""
        return History(self.book, self, entry)

    def steps(self) -> Iterator[History]:
        """The histories that end in each of the entries, the latest first."""
        step = self
        while step.before is not None:
            yield step
            step = step.before

    def entries(self, kind: type | UnionType) -> Iterator:
        """The entries of a kind, the latest first."""
        return (step.entry for step in self.steps() if isinstance(step.entry, kind))

    def positions(self, party: int) -> dict[int, dict[int, int]]:
        """The party's positions by day and hour."""
        found = {day: dict.fromkeys(HOURS, 0) for day in range(1, self.book.days + 1)}
        for trade in self.entries(Trade):
            if party in (trade.seller, trade.buyer):
                kwh = trade.kwh if party == trade.seller else -trade.kwh
                of_day = found[trade.day]
                for hour in trade.hours:
                    of_day[hour] += kwh
        return found

    def deliveries(self, day: int, hour: int) -> list[Regulate]:
        """The regulating deliveries of all parties in an hour."""
        return [
            delivery
            for delivery in self.entries(Regulate)
            if delivery.day == day and delivery.hour == hour
        ]

    def readings(self, day: int) -> dict[tuple[int, int], int]:
        """The readings of a day by hour and party; of several, the latest, met first."""
        found: dict[tuple[int, int], int] = {}
        for metered in self.entries(Meter):
            if metered.day == day:
                for hour in metered.hours:
                    found.setdefault((hour, metered.party), metered.kwh)
        return found

    def cash(self, party: int) -> int:
        """The party's cash."""
        total = 0
        for entry in self.entries(Deposit | Withdraw | Market):
            match entry:
                case Deposit() if entry.party == party:
                    total += entry.haler
                case Withdraw() if entry.party == party:
                    total -= entry.haler
                case Market() if entry.seller == party:
                    total += entry.haler
                case Market() if entry.buyer == party:
                    total -= entry.haler
        return total

    def state(self, day: int) -> State:
        """The state of a day: its close and its evaluations, each a step."""
        return State(sum(entry.day == day for entry in self.entries(Close | Evaluate)))

    def evaluated(self) -> dict[int, History]:
        """The evaluated days, each with the history before its latest evaluation."""
        found: dict[int, History] = {}
        for step in self.steps():
            if isinstance(step.entry, Evaluate):
                found.setdefault(step.entry.day, step.before)
        return found

    def settled(self, party: int) -> int:
        """The sum of the party's last amounts."""
        return sum(
            hour.amounts[party - 1]
            for day, basis in self.evaluated().items()
            for hour in evaluated_day(basis, day)
        )

    def operator_line(self) -> int:
        """The operator's line."""
        return sum(
            hour.operator
            for day, basis in self.evaluated().items()
            for hour in evaluated_day(basis, day)
        )

    def balance(self, party: int) -> int:
        """The party's balance."""
        return self.cash(party) + self.settled(party)

    def need(self, party: int) -> int:
        """The party's need, over the days not evaluated."""
        evaluated = self.evaluated()
        tenths = 0
        for day, of_day in self.positions(party).items():
            if day not in evaluated:
                for hour, kwh in of_day.items():
                    short, long = cover_prices(hour)
                    tenths += kwh * short if kwh > 0 else -kwh * long
        return -(-tenths // 10)

    def covered(self, party: int) -> bool:
        """Whether the party's balance covers its need."""
        return self.need(party) <= self.balance(party)


@dataclass(frozen=True)
class EvaluatedHour:
    """What an hour comes to: the parties' amounts in order, and the operator's part."""

    amounts: list[int]
    operator: int


@cache
def evaluated_day(history: History, day: int) -> list[EvaluatedHour]:
    """The hours of a day, all readings present; kept, since a history never changes."""
    parties = range(1, history.book.parties + 1)
    positions = [history.positions(party) for party in parties]
    readings = history.readings(day)
    return [
        evaluated_hour(
            history.book,
            [position[day][hour] for position in positions],
            [readings[hour, party] for party in parties],
            history.deliveries(day, hour),
        )
        for hour in HOURS
    ]


def evaluated_hour(
    book: Book,
    positions: Sequence[int],
    readings: Sequence[int],
    deliveries: Sequence[Regulate],
) -> EvaluatedHour:
    """Steps 1 to 5 of "One hour, evaluated"; positions and readings are by party."""
    regulating_kwh = [0] * book.parties
    regulating_tenths = [0] * book.parties
    for delivery in deliveries:
        regulating_kwh[delivery.party - 1] += delivery.kwh
        regulating_tenths[delivery.party - 1] += delivery.kwh * delivery.price

    imbalances = [
        reading - position - kwh
        for reading, position, kwh in zip(readings, positions, regulating_kwh)
    ]
    long, short = prices(book, sum(imbalances), record_of(deliveries))
    firsts = [
        nearest(imbalance * (short if imbalance < 0 else long) + tenths, 10)
        for imbalance, tenths in zip(imbalances, regulating_tenths)
    ]
    remainder = -sum(firsts)
    weights = [abs(reading) for reading in readings]
    if sum(weights) == 0:
        return EvaluatedHour(firsts, remainder)
    parts = shared(book, remainder, weights)
    return EvaluatedHour([first + part for first, part in zip(firsts, parts)], 0)


# Lines: "The journal's form"


@dataclass(frozen=True)
class Field:
    """A field as it is written, with the columns of its bracket and of its number."""

    word: str
    number: str
    column: int
    number_column: int


class Line:
    """One line of a journal. What is read from its text asks for a well-shaped line."""

    def __init__(self, text: bytes) -> None:
        """A line without its byte 10."""
        self.text = text

    @cached_property
    def head(self) -> str:
        """The head."""
        return re.match(rb"\(([a-z]+)", self.text)[1].decode("ascii")

    @cached_property
    def fields(self) -> list[Field]:
        """The fields in order."""
        return [
            Field(
                word=found[1].decode("ascii"),
                number=found[2].decode("ascii"),
                column=found.start() + 1,
                number_column=found.start(2) + 1,
            )
            for found in re.finditer(rb"\(([a-z]+) (-?[0-9]+)\)", self.text)
        ]

    @cached_property
    def form(self) -> Form:
        """The form, where head, fields and numbers are sound."""
        return HEADS[self.head](*(int(field.number) for field in self.fields))


def shape_steps() -> dict[str, dict[str, str]]:
    """The grammar of a line: at each point, the bytes that may follow and where they lead."""
    letters = "abcdefghijklmnopqrstuvwxyz"
    digits = "0123456789"
    return {
        "start": {"(": "head"},
        "head": dict.fromkeys(letters, "in head"),
        "in head": dict.fromkeys(letters, "in head") | {" ": "field", ")": "end"},
        "field": {"(": "word"},
        "word": dict.fromkeys(letters, "in word"),
        "in word": dict.fromkeys(letters, "in word") | {" ": "number"},
        "number": dict.fromkeys(digits, "in number") | {"-": "digits"},
        "digits": dict.fromkeys(digits, "in number"),
        "in number": dict.fromkeys(digits, "in number") | {")": "after field"},
        "after field": {" ": "field", ")": "end"},
        "end": {},
    }


SHAPE = shape_steps()


# Refusals: each check gives the place where its condition holds, and None where it does not.
# A check may rely on those above it in REFUSALS.


def too_long(journal: Journal, line: Line) -> int | None:
    """23: more than 200 bytes."""
    return MOST_BYTES + 1 if len(line.text) > MOST_BYTES else None


def not_admitted(journal: Journal, line: Line) -> int | None:
    """21: a byte that is not admitted."""
    found = re.search(rb"[^a-z0-9() -]", line.text)
    return found.start() + 1 if found else None


def misshapen(journal: Journal, line: Line) -> int | None:
    """22: not the shape of a form."""
    point = "start"
    for column, character in enumerate(line.text.decode("ascii"), start=1):
        if character not in SHAPE[point]:
            return column
        point = SHAPE[point][character]
    return None if point == "end" else len(line.text) + 1


def unknown_head(journal: Journal, line: Line) -> int | None:
    """31: head unknown."""
    return None if line.head in HEADS else 2


def wrong_field(journal: Journal, line: Line) -> int | None:
    """32: a field misnamed, surplus or missing."""
    words = HEADS[line.head].words()
    for place, field in enumerate(line.fields):
        if place >= len(words) or field.word != words[place]:
            return field.column
    return len(line.text) if len(line.fields) < len(words) else None


def unsound_number(journal: Journal, line: Line) -> int | None:
    """33: a number that is not sound."""
    for field in line.fields:
        if not re.fullmatch(r"0|-?[1-9][0-9]{0,17}", field.number):
            return field.number_column
    return None


def book_missing_or_second(journal: Journal, line: Line) -> int | None:
    """13: no book yet, or a second one."""
    return 0 if (journal.history is None) != isinstance(line.form, Book) else None


def wrong_size(journal: Journal, line: Line) -> int | None:
    """11: wrong number of parties or days."""
    form = line.form
    if not isinstance(form, Book):
        return None
    fits = 1 <= form.parties <= journal.parties and 1 <= form.days <= journal.days
    return None if fits else 0


def unknown_party(journal: Journal, line: Line) -> int | None:
    """1: party unknown."""
    for party in line.form.parties_named:
        if not 1 <= party <= journal.history.book.parties:
            return party
    return None


def unknown_day(journal: Journal, line: Line) -> int | None:
    """2: day unknown."""
    form = line.form
    if not hasattr(form, "day") or 1 <= form.day <= journal.history.book.days:
        return None
    return form.day


def wrong_hours(journal: Journal, line: Line) -> int | None:
    """3: an hour outside the day, or a range that ends before it starts."""
    match line.form:
        case Regulate(hour=hour) if hour not in HOURS:
            return hour
        case Ranged(from_=first, to=last) if not 1 <= first <= last <= 24:
            return first
    return None


def within(least: int, greatest: int) -> Callable[[int], bool]:
    """Whether a number lies between two others, both included."""
    return lambda number: least <= number <= greatest


# The fields that 4 asks about, in the order in which it asks.
RANGES: dict[type[Form], tuple[tuple[str, Callable[[int], bool]], ...]] = {
    Book: (
        ("pricing", within(1, 2)),
        ("default", within(-99_999, 99_999)),
        ("sharing", within(1, 2)),
    ),
    Deposit: (("haler", within(1, 10**12)),),
    Withdraw: (("haler", within(1, 10**12)),),
    Register: (("kwh", within(1, 499_000)),),
    Market: (
        ("kwh", lambda kwh: 1_000 <= kwh <= 499_000 and kwh % 100 == 0),
        ("price", lambda price: 1 <= abs(price) <= 99_999),
    ),
    Regulate: (
        ("kwh", lambda kwh: 1 <= abs(kwh) <= 499_000),
        ("price", within(-99_999, 99_999)),
    ),
    Meter: (("kwh", within(-MOST_KWH, MOST_KWH)),),
    Evaluate: (("stage", within(1, 3)),),
}


def out_of_range(journal: Journal, line: Line) -> int | None:
    """4: another field out of its range."""
    for name, admits in RANGES.get(type(line.form), ()):
        number = getattr(line.form, name)
        if not admits(number):
            return number
    return None


def trade_with_itself(journal: Journal, line: Line) -> int | None:
    """5: seller and buyer are the same."""
    form = line.form
    if isinstance(form, Trade) and form.seller == form.buyer:
        return form.seller
    return None


def wrong_state(journal: Journal, line: Line) -> int | None:
    """6: the day's state does not admit it."""
    form = line.form
    if not hasattr(form, "day"):
        return None
    state = journal.history.state(form.day)
    match form:
        case Register() | Market() | Close():
            admitted = state == State.OPEN
        case Regulate():
            admitted = state == State.CLOSED
        case Meter():
            admitted = state in (State.CLOSED, State.DAILY, State.MONTHLY)
        case Evaluate():
            admitted = state == form.stage
    return None if admitted else int(state)


def too_much_energy(journal: Journal, line: Line) -> int | None:
    """7: a position or an hour's total kWh would be too large."""
    form = line.form
    if isinstance(form, Trade):
        after = journal.history.then(form)
        positions = [after.positions(party)[form.day] for party in form.parties_named]
        for hour in form.hours:
            if any(abs(position[hour]) > MOST_KWH for position in positions):
                return hour
    if isinstance(form, Regulate):
        after = journal.history.then(form)
        record = record_of(after.deliveries(form.day, form.hour))
        for delivered in (record.upward, record.downward):
            if delivered is not None and delivered.kwh > MOST_KWH:
                return form.hour
    return None


def too_much_cash(journal: Journal, line: Line) -> int | None:
    """8: cash would be too large."""
    form = line.form
    if isinstance(form, Deposit | Withdraw | Market):
        after = journal.history.then(form)
        for party in form.parties_named:
            if abs(after.cash(party)) > MOST_CASH:
                return party
    return None


def not_covered(journal: Journal, line: Line) -> int | None:
    """9: party not covered afterwards."""
    form = line.form
    if isinstance(form, Withdraw | Trade):
        after = journal.history.then(form)
        for party in form.parties_named:
            if not after.covered(party):
                return party
    return None


def reading_absent(journal: Journal, line: Line) -> int | None:
    """10: a reading is absent."""
    form = line.form
    if isinstance(form, Evaluate):
        readings = journal.history.readings(form.day)
        for hour in HOURS:
            for party in range(1, journal.history.book.parties + 1):
                if (hour, party) not in readings:
                    return hour * 100 + party
    return None


# Number, layer and check, in the order of the table in "Refusals".
REFUSALS: tuple[tuple[int, int, Callable[[Journal, Line], int | None]], ...] = (
    (23, 1, too_long),
    (21, 1, not_admitted),
    (22, 1, misshapen),
    (31, 2, unknown_head),
    (32, 2, wrong_field),
    (33, 2, unsound_number),
    (13, 3, book_missing_or_second),
    (11, 3, wrong_size),
    (1, 3, unknown_party),
    (2, 3, unknown_day),
    (3, 3, wrong_hours),
    (4, 3, out_of_range),
    (5, 3, trade_with_itself),
    (6, 3, wrong_state),
    (7, 3, too_much_energy),
    (8, 3, too_much_cash),
    (9, 3, not_covered),
    (10, 3, reading_absent),
)


# The journal: "The line call", "book and show", "Answers"


class Journal:
    """A journal with its limits, and the history of its book once it has one."""

    def __init__(self, parties: int, days: int) -> None:
        """A journal without a book, for books of at most so many parties and days."""
        self.parties = parties
        self.days = days
        self.history: History | None = None

    def answer(self, text: bytes, number: int) -> list[str]:
        """The answer to one line, as lines of text; takes the line into the history."""
        if not text:
            return []
        line = Line(text)
        for refusal, layer, check in REFUSALS:
            place = check(self, line)
            if place is not None:
                return [
                    f"(no (line {number}) (layer {layer}) (number {refusal}) (place {place}))"
                ]
        return self.accept(line.form, number)

    def accept(self, form: Form, number: int) -> list[str]:
        """Takes in a form that nothing speaks against, and answers it."""
        match form:
            case Book():
                self.history = History(form)
            case Show(party=party):
                balance, need = self.history.balance(party), self.history.need(party)
                return [
                    f"(show (line {number}) (party {party}) (balance {balance}) (need {need}))"
                ]
            case Evaluate():
                before, self.history = self.history, self.history.then(form)
                return payments(before, self.history, number)
            case _:
                self.history = self.history.then(form)
        return [f"(ok (line {number}))"]


def payments(before: History, after: History, number: int) -> list[str]:
    """The answer to an accepted evaluation, which lies between the two histories."""
    answers = []
    for party in range(1, after.book.parties + 1):
        haler = after.settled(party) - before.settled(party)
        answers.append(f"(pay (line {number}) (party {party}) (haler {haler}))")
    answers.append(f"(operator (line {number}) (haler {after.operator_line()}))")
    return answers


def main() -> None:
    """Answers the journal on standard input."""
    parser = argparse.ArgumentParser(description="Answers a journal by docs/RULES.md.")
    parser.add_argument("--parties", type=int, default=8, help="most parties of a book")
    parser.add_argument("--days", type=int, default=4, help="most days of a book")
    limits = parser.parse_args()
    if not 1 <= limits.parties <= MOST_PARTIES or not 1 <= limits.days <= MOST_DAYS:
        parser.error(f"limits are 1 to {MOST_PARTIES} parties and 1 to {MOST_DAYS} days")

    journal = Journal(limits.parties, limits.days)
    for number, line in enumerate(sys.stdin.buffer, start=1):
        if number <= LAST_LINE_NUMBER:
            for answer in journal.answer(line.removesuffix(b"\n"), number):
                sys.stdout.buffer.write(f"{answer}\n".encode("ascii"))


if __name__ == "__main__":
    main()
