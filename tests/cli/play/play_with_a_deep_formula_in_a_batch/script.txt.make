print("batch\nset A1 5\nset A2 =" + "(" * 65 + "1" + ")" * 65 + "\nend")
