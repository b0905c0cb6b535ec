print("set B2 7")
for edit in range(1_048_575):
    print("set A1 5")
