formula = "=" + "-" * 8_190 + "1"
for number in range(1_000):
    print("set A1 " + formula)
