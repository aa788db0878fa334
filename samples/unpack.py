# Tuple targets unpack from last to first, nested ones too.
a, (b, c) = stock
first, second = second, first
shelf[a] = b
shelf.count = c

# In a function they stay there: the caller's full is another.
def read(counts, stock):
    (counts, left), full = stock
    return [counts, left, full]

counts, full = read(a, stock)
