formula = "=" + "+".join(["1"] * 4000)
print("set A1 " + formula)
