formula = "=" + "IF(TRUE;" * 64 + "7" + ";1)" * 64
print("set A1 " + formula)
