from mypy_extensions import i64

level: i64 = 0
highest: i64 = 0


def move(by: i64) -> None:
    global level, highest
    level += by
    if level > highest:
        highest = level


def tide(steps: i64) -> None:
    while steps > 0:
        move(steps * 7 % 5 - 2)
        steps -= 1


tide(12)
print(level)
print(highest)
flooded: bool = highest >= 3
print(flooded)


def depth() -> i64:
    return level - bottom


print(depth())
bottom: i64 = -i64(4)
