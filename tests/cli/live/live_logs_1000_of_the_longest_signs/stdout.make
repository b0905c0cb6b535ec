formula = "=" + "-" * 8_190 + "1"
print("log 1000")
for number in range(1, 1_001):
    print(f"{number} main set A1 {formula}")
print("client main\nsheet 1000 A1:A1\n1")
