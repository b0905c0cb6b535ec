# The sum of 4,096 ones: 8,192 bytes.
print("=1" + "+1" * 4095)
