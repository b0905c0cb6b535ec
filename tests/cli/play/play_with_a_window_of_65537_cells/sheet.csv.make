print("1\n" * 65_537, end="")
