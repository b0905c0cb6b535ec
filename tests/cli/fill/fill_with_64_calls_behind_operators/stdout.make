print("batch\nset A2 =" + "IF(1=1+1*1^" * 64 + "B2" + ";2)" * 64 + "\nend")
