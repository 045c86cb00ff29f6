from typing import List, Optional, Tuple


def mean(numbers: List[int], weights: List[int]) -> int:
    total, weight = 0, 0
    for i in range(len(numbers)):
        total += numbers[i] * (weights[i] if i < len(weights) else 1)
        weight += weights[i] if i < len(weights) else 1
    return total // weight if weight != 0 else 0


def first_above(numbers: List[int], bound: Optional[int]) -> Optional[int]:
    for number in numbers:
        if bound is None or number > bound:
            return number
    return None


def words_of(text: str) -> List[str]:
    found: List[str] = []
    i = 0
    word = ""
    while i < len(text):
        if text[i] == " " or text[i] == "\t":
            if word != "":
                found.append(word)
            word = ""
        else:
            word += text[i]
        i += 1
    if word != "":
        found.append(word)
    return found


def longest(words: List[str]) -> Optional[str]:
    best: Optional[str] = None
    for word in words:
        if best is None or len(word) > len(best):
            best = word
    return best


def common_divisor(a: int, b: int) -> int:
    while b != 0:
        a, b = b, a % b
    return a


def bounds(numbers: List[int]) -> Optional[Tuple[int, int]]:
    if len(numbers) == 0:
        return None
    least, most = numbers[0], numbers[0]
    for number in numbers:
        if number < least:
            least = number
        elif number > most:
            most = number
    return least, most


def spread(numbers: List[int]) -> int:
    found = bounds(numbers)
    if found is None:
        return 0
    return found[1] - found[0]


def describe(numbers: List[int], text: str) -> None:
    print("mean", mean(numbers, [1, 2, 3]), "spread", spread(numbers))
    name = longest(words_of(text))
    print("none" if name is None else name, common_divisor(12, 18))


describe([3, 9, 4, 1], "a list of the longest\twords")
describe([], "")
