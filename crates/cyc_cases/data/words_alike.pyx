def defs(Int, ints, selfs, None_): return None_ + ints
