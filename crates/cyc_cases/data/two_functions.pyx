def f(a, b): return a + b
def g(a, b): return a + b
