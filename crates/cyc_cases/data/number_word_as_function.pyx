def int(a, b): return a + b
