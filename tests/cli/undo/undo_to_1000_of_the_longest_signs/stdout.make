formula = "=" + "-" * 8_190 + "1"
print("batch")
for row in range(1, 1_001):
    print(f"set A{row} {formula}")
print("end")
