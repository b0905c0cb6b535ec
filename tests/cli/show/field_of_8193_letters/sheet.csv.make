print("x" * 8193)
