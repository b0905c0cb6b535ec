# 1,025 records, each its own number.
for record in range(1, 1026):
    print(record)
