print("batch\nset A1 5\nset A2 =" + "+".join(["B1"] * 256) + "\nset A2 5")
