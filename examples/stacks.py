from typing import List, Optional, Tuple


def words_of(text: str) -> List[str]:
    found: List[str] = []
    word = ""
    i = 0
    while i < len(text):
        if text[i] != " ":
            word += text[i]
        elif word != "":
            found.append(word)
            word = ""
        i += 1
    if word != "":
        found.append(word)
    return found


def digit(letter: str) -> int:
    value = 0
    while "0123456789"[value] != letter:
        value += 1
    return value


def number_of(word: str) -> int:
    number = 0
    i = 0
    while i < len(word):
        number = number * 10 + digit(word[i])
        i += 1
    return number


def applied(operator: str, a: int, b: int) -> int:
    if operator == "+":
        return a + b
    if operator == "-":
        return a - b
    if operator == "*":
        return a * b
    return a // b


def is_operator(word: str) -> bool:
    return word == "+" or word == "-" or word == "*" or word == "/"


def result_of(words: List[str]) -> Tuple[int, int]:
    stack: List[int] = []
    most = 0
    i = 0
    while i < len(words):
        if is_operator(words[i]):
            b = stack.pop()
            a = stack.pop()
            stack.append(applied(words[i], a, b))
        else:
            stack.append(number_of(words[i]))
        most = len(stack) if most < len(stack) else most
        i += 1
    return stack.pop(), most


def tell(text: str, name: Optional[str]) -> None:
    found = result_of(words_of(text))
    lines = [text, "is", str(found[0]), "with " + str(found[1]) + " on the stack"]
    name = lines[0] + " " + lines[1]
    print(name, lines[-2], lines.pop())


tell("3 4 +", None)
tell("2 3 4 * + 5 -", "none")
tell("100000000000000000000 100000000000000 *  7 /", None)
tell("1 +", None)
