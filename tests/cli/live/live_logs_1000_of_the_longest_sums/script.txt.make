formula = "=" + "+".join(["1"] * 4_096)
for number in range(1_000):
    print("set A1 " + formula)
