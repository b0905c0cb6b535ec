formula = "=" + "+".join(["1"] * 4_096)
print("batch")
for row in range(2, 1_026):
    print(f"set A{row} {formula}")
print("end")
