from mypy_extensions import i64


def fib(n: i64) -> i64:
    return n if n < 2 else fib(n - 1) + fib(n - 2)


def rest(a: i64, b: i64) -> i64:
    while a >= b:
        a -= b
    return a


def common_divisor(a: i64, b: i64) -> i64:
    return a if b == 0 else common_divisor(b, rest(a, b))


def has_divisor(n: i64, from_: i64) -> bool:
    while from_ * from_ <= n:
        if rest(n, from_) == 0:
            return True
        from_ += 1
    return False


def primes(n: i64, limit: i64) -> None:
    while True:
        n += 1
        if n > limit:
            break
        if n < 2 or has_divisor(n, 2):
            continue
        print(n)


print(fib(20))
print(common_divisor(1071, 462))
primes(0, 30)
print(1 < fib(7) <= 13 and not has_divisor(97, 2))
