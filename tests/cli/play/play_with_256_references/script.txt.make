print("set A1 =" + "+".join(["B1"] * 256))
