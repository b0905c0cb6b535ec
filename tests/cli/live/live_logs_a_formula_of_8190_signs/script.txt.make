formula = "=" + "-" * 8190 + "1"
print("set A1 " + formula)
