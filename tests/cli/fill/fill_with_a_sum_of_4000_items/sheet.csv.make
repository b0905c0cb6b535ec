print("=" + "8+" * 3999 + "B1")
print("2")
