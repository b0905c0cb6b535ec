# 1,024 records, each its own number.
for record in range(1, 1025):
    print(record)
