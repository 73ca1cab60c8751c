for time in range(600):
    print(time, 0, sep=",")
print("600,10000000000000000.01")
