# A lambda captures the slots of the def around it that it names.
def sorter(limit, order):
    scale = 2
    keep = lambda sheets: sheets * scale < limit
    if order:
        return lambda x, y: keep(x) and not keep(y)
    return lambda x, y: keep(y) or x == limit

pick = sorter(96, True)
print(pick(40, 50))
