print(0)
print(7)
print(42)
print(4611686018427387903)
