"""Writes the rows of both shapes as CSV files: by fixed seeds, so that each run has the same bytes.

At scale 1 both take 20 MB; the tables grow with the scale, but regions, nations and days. Shapes and shares are those of the benchmarks where a query asks
about them: a third of the customers has no order, orders have one to seven items, an item's supplier is one of the four that sell its part.
"""
import datetime
import random

from .shapes import SHAPES

REGIONS = ("AFRICA", "AMERICA", "ASIA", "EUROPE", "MIDDLE EAST")
# Each with its region's number.
NATIONS = (
    ("ALGERIA", 0), ("ARGENTINA", 1), ("BRAZIL", 1), ("CANADA", 1), ("EGYPT", 4), ("ETHIOPIA", 0), ("FRANCE", 3), ("GERMANY", 3), ("INDIA", 2),
    ("INDONESIA", 2), ("IRAN", 4), ("IRAQ", 4), ("JAPAN", 2), ("JORDAN", 4), ("KENYA", 0), ("MOROCCO", 0), ("MOZAMBIQUE", 0), ("PERU", 1), ("CHINA", 2),
    ("ROMANIA", 3), ("SAUDI ARABIA", 4), ("VIETNAM", 2), ("RUSSIA", 3), ("UNITED KINGDOM", 3), ("UNITED STATES", 1),
)  # fmt: skip
COLORS = (
    "almond antique aquamarine azure beige bisque black blanched blue blush brown burlywood burnished chartreuse chiffon chocolate coral cornflower"
    " cornsilk cream cyan dark deep dim dodger drab firebrick floral forest frosted gainsboro ghost goldenrod green grey honeydew hot indian ivory khaki"
    " lace lavender lawn lemon light lime linen magenta maroon medium metallic midnight mint misty moccasin navajo navy olive orange orchid pale papaya"
    " peach peru pink plum powder puff purple red rose rosy royal saddle salmon sandy seashell sienna sky slate smoke snow spring steel tan thistle"
    " tomato turquoise violet wheat white yellow"
).split()
KINDS = [words.split() for words in ("STANDARD SMALL MEDIUM LARGE ECONOMY PROMO", "ANODIZED BURNISHED PLATED POLISHED BRUSHED", "TIN NICKEL BRASS STEEL COPPER")]
CONTAINERS = [words.split() for words in ("SM LG MED JUMBO WRAP", "CASE BOX BAG JAR PKG PACK CAN DRUM")]
SEGMENTS = "AUTOMOBILE BUILDING FURNITURE MACHINERY HOUSEHOLD".split()
PRIORITIES = ("1-URGENT", "2-HIGH", "3-MEDIUM", "4-NOT SPECIFIED", "5-LOW")
MODES = ("REG AIR", "AIR", "RAIL", "SHIP", "TRUCK", "MAIL", "FOB")
INSTRUCTIONS = ("DELIVER IN PERSON", "COLLECT COD", "NONE", "TAKE BACK RETURN")
FIRST_DAY = datetime.date(1992, 1, 1)
FEWEST_ROWS = 8


def date_of(day):
    return FIRST_DAY + datetime.timedelta(day)


def number_of(day):
    return int(date_of(day).strftime("%Y%m%d"))


def day_of(*date):
    return (datetime.date(*date) - FIRST_DAY).days


def phone(draw, nation):
    return f"{nation + 10}-{draw.randrange(100, 1000)}-{draw.randrange(1000, 10_000)}"


def balance(draw):
    return draw.randrange(-99_999, 1_000_000)


def price_of(part):
    return 90_000 + part // 10 % 20_001 + part % 1000 * 100


# ---- TPC-H


def suppliers(draw, count):
    for key in range(1, count + 1):
        nation = draw.randrange(len(NATIONS))
        yield key, f"Supplier#{key:09}", nation, phone(draw, nation), balance(draw), int(draw.random() < 0.02)


def parts(draw, count):
    for key in range(1, count + 1):
        maker = draw.randrange(1, 6)
        kinds = [draw.choice(words) for words in KINDS]
        brand = f"Brand#{maker}{draw.randrange(1, 6)}"
        container = " ".join(draw.choice(words) for words in CONTAINERS)
        kind = " ".join(kinds), kinds[0], kinds[2]
        yield key, *draw.sample(COLORS, 2), f"Manufacturer#{maker}", brand, *kind, draw.randrange(1, 51), container, price_of(key)


def sellers_of(parts_count, suppliers_count):
    """The four suppliers of each part, spread over all of them."""
    step = max(1, suppliers_count // 4)
    return {part: [(part + place * step + part // suppliers_count) % suppliers_count + 1 for place in range(4)] for part in range(1, parts_count + 1)}


def offers(draw, sellers):
    for part, by in sellers.items():
        for supplier in by:
            quantity, cost = draw.randrange(1, 10_000), draw.randrange(100, 100_001)
            yield part, supplier, quantity, cost, quantity * cost


def customers(draw, count):
    for key in range(1, count + 1):
        nation = draw.randrange(len(NATIONS))
        yield key, f"Customer#{key:09}", nation, phone(draw, nation), nation + 10, balance(draw), draw.choice(SEGMENTS)


def item(draw, order, line, ordered, sellers):
    """A row of lineitem; its order's total grows by what stands behind it."""
    part = draw.randrange(1, len(sellers) + 1)
    quantity, discount, tax = draw.randrange(1, 51), draw.randrange(11), draw.randrange(9)
    price = quantity * price_of(part)
    revenue = price * (100 - discount) // 100
    shipped, due = ordered + draw.randrange(1, 122), ordered + draw.randrange(30, 91)
    received = shipped + draw.randrange(1, 31)
    today = day_of(1995, 6, 17)
    states = "N" if received > today else draw.choice("RA"), "O" if shipped > today else "F"
    dates = number_of(shipped), date_of(shipped).year, number_of(due), number_of(received)
    amounts = quantity, price, discount, tax, revenue
    row = order, part, draw.choice(sellers[part]), line, *amounts, *states, *dates, draw.choice(INSTRUCTIONS), draw.choice(MODES)
    return row, revenue * (100 + tax) // 100


def orders_and_items(draw, count, customers_count, sellers):
    buyers = [key for key in range(1, customers_count + 1) if key % 3]
    orders, items = [], []
    for place in range(count):
        key = place // 8 * 32 + place % 8 + 1  # as the benchmark has it, of 32 keys eight are used
        ordered = draw.randrange(day_of(1998, 8, 2))
        rows, totals = zip(*(item(draw, key, line, ordered, sellers) for line in range(1, draw.randrange(1, 8) + 1)))
        items += rows
        states = {row[10] for row in rows}
        state = states.pop() if len(states) == 1 else "P"
        dates = number_of(ordered), date_of(ordered).year
        orders.append((key, draw.choice(buyers), state, sum(totals), *dates, draw.choice(PRIORITIES), 0, int(draw.random() < 0.0125)))
    return orders, items


def tpch(scale):
    draw = random.Random(1)
    count = lambda number: max(FEWEST_ROWS, round(number * scale))
    sellers = sellers_of(count(3400), count(170))
    orders, items = orders_and_items(draw, count(25_000), count(2500), sellers)
    return {
        "region": enumerate(REGIONS),
        "nation": ((key, *nation) for key, nation in enumerate(NATIONS)),
        "supplier": suppliers(draw, count(170)),
        "part": parts(draw, count(3400)),
        "partsupp": offers(draw, sellers),
        "customer": customers(draw, count(2500)),
        "orders": orders,
        "lineitem": items,
    }


# ---- the Star Schema Benchmark


def days():
    for day in range(day_of(1998, 12, 31)):
        date = date_of(day)
        month = date.strftime("%b")
        yield number_of(day), date.year, date.year * 100 + date.month, f"{month}{date.year}", (date.timetuple().tm_yday + 6) // 7, month


def place(draw):
    """City, nation and region; a city is ten letters: nine of its nation, and a digit."""
    nation, region = draw.choice(NATIONS)
    return f"{nation[:9]:_<9}{draw.randrange(10)}".replace(" ", "_"), nation, REGIONS[region]


def goods(draw, count):
    for key in range(1, count + 1):
        maker = f"MFGR#{draw.randrange(1, 6)}"
        category = f"{maker}{draw.randrange(1, 6)}"
        yield key, maker, category, f"{category}{draw.randrange(1, 41):02}", draw.choice(COLORS)


def order_lines(draw, count, customers_count, parts_count, suppliers_count):
    rows, order = [], 0
    while len(rows) < count:
        order += 1
        customer, date = draw.randrange(1, customers_count + 1), number_of(draw.randrange(day_of(1998, 8, 3)))
        for line in range(1, draw.randrange(1, 8) + 1):
            part, quantity, discount = draw.randrange(1, parts_count + 1), draw.randrange(1, 51), draw.randrange(11)
            price = 90_000 + part % 1000 * 100
            revenue, cost = quantity * price * (100 - discount) // 100, price * 6 // 10
            amounts = quantity, quantity * price, discount, quantity * price * discount, revenue, cost, revenue - cost
            rows.append((order, line, customer, part, draw.randrange(1, suppliers_count + 1), date, *amounts))
    return rows


def ssb(scale):
    draw = random.Random(2)
    count = lambda number: max(FEWEST_ROWS, round(number * scale))
    return {
        "date": days(),
        "customer": ((key, f"Customer#{key}", *place(draw), draw.choice(SEGMENTS)) for key in range(1, count(3000) + 1)),
        "supplier": ((key, f"Supplier#{key}", *place(draw)) for key in range(1, count(400) + 1)),
        "part": goods(draw, count(6000)),
        "lineorder": order_lines(draw, count(100_000), count(3000), count(6000), count(400)),
    }


def write(folder, shape, scale):
    """A file for each table of the shape."""
    folder.mkdir(exist_ok=True)
    folder.chmod(0o755)
    for name, rows in {"tpch": tpch, "ssb": ssb}[shape](scale).items():
        with open(folder / f"{name}.csv", "w", newline="\n") as file:
            file.write(",".join(SHAPES[shape][name].columns) + "\n")
            file.writelines(",".join(map(str, row)) + "\n" for row in rows)
