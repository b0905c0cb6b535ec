# The first record behind the line has a field of 8193 bytes.
print("#edition 2")
print("x" * 8193)
