print("batch\nset A2 =" + "-" * 8190 + "1\nend")
