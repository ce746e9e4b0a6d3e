def F9(a1, A1): return A1 + a1
