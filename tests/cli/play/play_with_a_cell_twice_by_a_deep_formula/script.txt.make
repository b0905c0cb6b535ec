print("batch\nset A1 5\nset A1 =" + "(" * 65 + "1" + ")" * 65 + "\nend")
