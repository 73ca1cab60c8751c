print("time,value", end="\r\n")
for second in range(86400):
    if second % 3600 != 1800:
        print(second, "20.00" if second < 43200 else "25.00", sep=",", end="\r\n")
