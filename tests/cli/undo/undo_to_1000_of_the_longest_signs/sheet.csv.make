for row in range(1_000):
    print("=" + "-" * 8_190 + "1")
