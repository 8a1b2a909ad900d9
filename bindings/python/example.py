"""Stock of a shop: a map from names to counts, and the state of the evening before, which costs one call to keep."""

from tambyulo import Map

stock = Map({"apple": 5, "apricot": 2, "pear": 7}, keys=str)
evening = stock.snapshot()

stock["apple"] = 6
del stock["pear"]
print(f"apple: {stock['apple']} now, {evening['apple']} in the evening")
print(f"ap..: {stock.count_prefix('ap')} names")
for name, count in sorted(evening.items()):
    print(f"  {name} {count}")
