print("set B2 7")
for edit in range(1_048_574):
    print("set A1 5")
print("clear B2")
