print("batch")
for row in range(1, 1025):
    print(f"set A{row} 1")
print("set A7 1")
print("end")
