# Paper names: what a stock weighs, by the name that its maker gives it.

class Paper:
    maker = "Moulin à papier"

    def __init__(self, name, weight):
        self.name = name
        self.weight = weight

def weight(stock, name):
    for paper in stock:
        if paper.name == name:
            return paper.weight
    print("nicht vorrätig: ", name)
    return 0

stock = [Paper("Büttenpapier", 120), Paper("vélin d'Arches", 250), Paper("ruční papír", 90), Paper("和紙", 40)]
signs = {"✂": "à couper", "🗞": "für die Zeitung"}
for name in ["vergé crème", "和紙", "Büttenpapier"]:
    print(name, weight(stock, name), "g/m²")
