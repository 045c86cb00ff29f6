from mypy_extensions import i64


def common_divisor(a: i64, b: i64) -> i64:
    return a if b == 0 else common_divisor(b, a % b)


def power(base: i64, n: i64, modulus: i64) -> i64:
    if n == 0:
        return 1 % modulus
    if n % 2 == 1:
        return base * power(base, n - 1, modulus) % modulus
    return power(base * base % modulus, n // 2, modulus)


def ones(n: i64, count: i64) -> i64:
    while n > 0:
        count += n % 2
        n >>= 1
    return count


def shares(total: i64, people: i64) -> None:
    while True:
        print(total // people)
        people -= 1


print(common_divisor(1071, 462))
print(power(7, 1000000, 1000003))
print(ones((i64(1) << 40) - 1, 0))
shares(30, 4)
print(0)
