def f(int, b): return b + b
