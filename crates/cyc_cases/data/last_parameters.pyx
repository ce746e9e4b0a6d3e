def f(a, b, c): return c + b
