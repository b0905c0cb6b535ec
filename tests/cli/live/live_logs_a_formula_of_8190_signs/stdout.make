formula = "=" + "-" * 8190 + "1"
print("log 1\n1 main set A1 " + formula + "\nclient main\nsheet 1 A1:A1\n1")
