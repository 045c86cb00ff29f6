text = "to be or not to be that is the question whether it is nobler in the mind to be"

longest = ""
words = 0


def word_at(line: str, i: int) -> str:
    word = ""
    while i < len(line) and line[i] != " ":
        word += line[i]
        i += 1
    return word


def occurrences(line: str, wanted: str) -> int:
    found = 0
    i = 0
    while i < len(line):
        word = word_at(line, i)
        if word == wanted:
            found += 1
        i += len(word) + 1
    return found


def is_first(line: str, at: int) -> bool:
    word = word_at(line, at)
    i = 0
    while i < at:
        other = word_at(line, i)
        if other == word:
            return False
        i += len(other) + 1
    return True


def note(word: str) -> None:
    global longest, words
    words += 1
    if len(word) > len(longest):
        longest = word


def number_of(word: str) -> int:
    number = 0
    i = 0
    while i < len(word):
        letter = 1
        while letter < 26 and word[i] != "abcdefghijklmnopqrstuvwxyz"[letter - 1]:
            letter += 1
        number = number * 27 + letter
        i += 1
    return number


def stars(n: int) -> str:
    return "" if n == 0 else "*" + stars(n - 1)


def report(line: str) -> None:
    i = 0
    while i < len(line):
        word = word_at(line, i)
        note(word)
        if is_first(line, i):
            n = occurrences(line, word)
            if n > 1:
                print(word, n, stars(n))
        i += len(word) + 1


report(text)
print(words, "words, the longest:", longest or "none")
print(number_of("be"), number_of(longest), number_of(longest) * number_of("whether"))
print("of " + str(len(text)) + " characters:", len(text) - words + 1, "letters")
