print("batch\nset A2 =" + "8+" * 3999 + "B2\nend")
