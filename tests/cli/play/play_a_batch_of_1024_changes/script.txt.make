print("batch")
for row in range(1, 1025):
    print(f"set A{row} 1")
print("end")
print("look B1:B1")
print("firm B1:B1")
