print("batch")
for row in range(1, 1_001):
    print(f"set A{row} 1")
print("end")
