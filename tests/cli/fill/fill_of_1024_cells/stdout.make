print("batch")
for row in range(2, 1_026):
    print(f"set B{row} =A{row}*$A$1")
print("end")
