def f(a, é): return a + a
