print("batch")
for row in range(1, 1026):
    print(f"set A{row} 1")
print("end")
