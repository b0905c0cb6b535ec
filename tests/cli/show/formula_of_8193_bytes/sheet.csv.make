# The sum of 4,096 ones, the first with a leading zero: 8,193 bytes.
print("=01" + "+1" * 4095)
