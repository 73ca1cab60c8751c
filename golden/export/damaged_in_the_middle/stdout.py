print("time,value")
for slot in range(5120):
    print(f"{slot},{slot}")
