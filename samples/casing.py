# Casing-in: how many boards of each job a sheet gives, and what is left of it.

class Sheet:
    def __init__(self, left):
        self.left = left

def board(pages, paper):
    if pages == 0:
        return 0
    return pages * paper / 2 + 3

def cut(sheet, jobs):
    count = 0
    for job in jobs:
        size = board(job, 2)
        while size > 0 and size < sheet.left:
            sheet.left = sheet.left - size
            count = count + 1
            if sheet.left < 10:
                print("sheet used up", job)
                break
    return count

sheet = Sheet(700)
print("boards", cut(sheet, [96, 240, 32]))
