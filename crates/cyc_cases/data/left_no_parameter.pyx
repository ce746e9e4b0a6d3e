def f(a, b): return c + b
