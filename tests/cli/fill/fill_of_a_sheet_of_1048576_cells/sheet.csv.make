for row in range(65_536):
    print(",".join(["1"] * 16))
