from typing import Dict, List, Optional
from mypy_extensions import trait


@trait
class Priced:
    def fee(self, days: int) -> int:
        return days * 5


@trait
class Shelved:
    def shelf(self) -> str:
        return "store"


class Thing:
    count: int

    def __init__(self, title: str, count: int) -> None:
        self.title = title
        self.count = count
        self.lent = 0

    def free(self) -> int:
        return self.count - self.lent

    def label(self) -> str:
        return self.title + " (" + str(self.free()) + ")"


class Book(Thing, Priced, Shelved):
    def __init__(self, title: str, writer: str, count: int) -> None:
        super().__init__(title, count)
        self.writer = writer
        self.next: Optional[Book] = None

    def label(self) -> str:
        return self.writer + ": " + self.title

    def fee(self, days: int) -> int:
        return 0 if days < 14 else (days - 14) * 3


class Tool(Thing, Priced):
    deposit: int

    def __init__(self, title: str, count: int) -> None:
        super().__init__(title, count)
        self.deposit = 50 if count < 3 else 20


class Desk:
    def __init__(self) -> None:
        self.things: Dict[str, Thing] = {}
        self.loans: Dict[str, List[str]] = {"desk": []}
        self.refused = 0

    def add(self, thing: Thing) -> None:
        if thing.title in self.things:
            raise ValueError("there is one: " + thing.title)
        self.things[thing.title] = thing

    def lend(self, title: str, reader: str) -> bool:
        assert reader != "", "nobody lends " + title
        try:
            thing = self.things[title]
            if thing.free() <= 0:
                raise LookupError(title)
            thing.lent += 1
        except KeyError:
            self.refused += 1
            return False
        except (IndexError, LookupError) as e:
            print("refused:", str(e))
            return False
        if reader not in self.loans:
            self.loans[reader] = []
        self.loans[reader].append(title)
        return True

    def give_back(self, reader: str) -> int:
        given = 0
        if reader in self.loans:
            for title in self.loans[reader]:
                self.things[title].lent -= 1
                given += 1
            del self.loans[reader]
        return given


def dearest(things: Dict[str, Priced], days: int) -> Optional[Priced]:
    best: Optional[Priced] = None
    for title in things:
        thing = things[title]
        if best is None or thing.fee(days) > best.fee(days):
            best = thing
    return best


def lengths(words: List[str]) -> Dict[int, int]:
    counts: Dict[int, int] = {}
    for word in words:
        n = len(word)
        counts[n] = counts[n] + 1 if n in counts else 1
    return counts


def open_desk(titles: List[str]) -> Desk:
    desk = Desk()
    for title in titles:
        try:
            desk.add(Book(title, "unknown", 1 + len(title) % 4))
        except ValueError as e:
            print(e)
        finally:
            desk.refused = 0
    desk.add(Tool("saw", 2))
    return desk


def busy_day() -> None:
    desk = open_desk(["Emma", "Ulysses", "Emma"])
    readers = {"ann": "Emma", "bob": "saw", "cat": "Dune"}
    for reader in readers:
        if not desk.lend(readers[reader], reader):
            print(reader, "goes without", readers[reader])
    best = dearest({"a": Book("Emma", "Austen", 1), "b": Tool("saw", 2)}, 30)
    if best is not None:
        print(best.fee(30), lengths(["a", "an", "to"])[2], desk.give_back("ann"))
