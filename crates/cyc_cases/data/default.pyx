def f(a, b=1): return a + b
