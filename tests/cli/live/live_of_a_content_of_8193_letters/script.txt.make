print("set A1 " + "x" * 8_193)
