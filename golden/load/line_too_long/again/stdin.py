print("0,1")
print("1," + 8191 * "0")
