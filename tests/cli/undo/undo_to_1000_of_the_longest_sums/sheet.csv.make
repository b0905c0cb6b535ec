for row in range(1_000):
    print("=" + "+".join(["1"] * 4_096))
