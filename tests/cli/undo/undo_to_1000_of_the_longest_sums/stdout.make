formula = "=" + "+".join(["1"] * 4_096)
print("batch")
for row in range(1, 1_001):
    print(f"set A{row} {formula}")
print("end")
