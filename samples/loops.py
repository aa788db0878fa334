# Loops with break and continue, one in the other.
total = 0
for shelf in shelves:
    if shelf == None:
        continue
    for book in shelf:
        while book.loose:
            if book.lost:
                break
            book.glue()
        total = total + 1
print(total)
