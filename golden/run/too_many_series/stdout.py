print("done 0\n" * 512 + "refused 10 0 0\nrefused 9 0 0")
