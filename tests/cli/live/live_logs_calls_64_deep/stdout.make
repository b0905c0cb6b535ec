formula = "=" + "IF(TRUE;" * 64 + "7" + ";1)" * 64
print("log 1\n1 main set A1 " + formula + "\nclient main\nsheet 1 A1:A1\n7")
