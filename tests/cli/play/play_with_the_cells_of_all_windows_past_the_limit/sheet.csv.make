print("1\n" * 65_536, end="")
