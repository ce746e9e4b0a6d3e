def f(int a, b): return a + b
