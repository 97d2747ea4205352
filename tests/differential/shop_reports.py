"""A shop's tables with random rows, and report queries over them, for the imports from SQLite and from PostgreSQL.

The definitions are both engines' SQL. In a query `[..]` is a column of prices or a sum of such, of which the import has a hundred times the value,
and `{..}` a boolean, of which it has 1 or 0: the program is asked what stands within, an engine the same number by its own arithmetic.
"""

import datetime
import re

DEFINITIONS = {
    "country": "code CHAR(2) PRIMARY KEY, title TEXT NOT NULL UNIQUE, continent TEXT",
    "customer": "id INTEGER PRIMARY KEY, name TEXT NOT NULL, city TEXT, country CHAR(2), born DATE, active BOOLEAN NOT NULL",
    "category": "id INTEGER PRIMARY KEY, parent INTEGER, title VARCHAR(400) NOT NULL, UNIQUE (title, parent)",
    "item": "id INTEGER PRIMARY KEY, category INTEGER, title TEXT NOT NULL, price NUMERIC(10,2), stock BIGINT",
    "purchase": "id INTEGER PRIMARY KEY, customer INTEGER, placed DATE NOT NULL, note TEXT",
    "line": "purchase INTEGER NOT NULL, place SMALLINT NOT NULL, item INTEGER NOT NULL, amount INTEGER NOT NULL, price DECIMAL(8,2) NOT NULL,"
    " PRIMARY KEY (purchase, place)",
    "review": "id INTEGER PRIMARY KEY, item INTEGER, customer INTEGER, stars INTEGER, words TEXT, UNIQUE (item, customer)",
    "supplier": "id INTEGER PRIMARY KEY, name TEXT NOT NULL, country CHAR(2), limits DECIMAL(12,2)",
    "refund": "id INTEGER PRIMARY KEY, purchase INTEGER, paid NUMERIC(10,2), reason TEXT",
}
"""Of nine tables. The last has no rows."""
INDEXES = ["item(category)", "purchase(customer, placed)", "purchase(placed)", "line(item)", "review(customer)", "customer(country, city)"]
WORDS = ["", " in front", "a", "B", "NULL", "-7", "\ttab\v\f\b", "Ærø", "漢字", "it's", "x" * 300]
WORDS += ["plain", "a, b", 'said "no"', "two\nlines", "a\r\nb", "a\rb", "\\N", "\\", "\\\\N"]
QUERIES = """
SELECT * FROM country
SELECT id, name, city, country, born, {active} FROM customer ORDER BY id
SELECT id, category, title, [price], stock FROM item
SELECT id, title, [price] AS cents FROM item WHERE [price] > 2000 ORDER BY cents DESC, id
SELECT id, stock FROM item WHERE stock < 0 OR stock > 1000000000000 ORDER BY stock, id
SELECT id, born FROM customer WHERE born >= '1980-01-01' AND born < '2000-01-01' ORDER BY born, id
SELECT id, words FROM review WHERE words = 'a, b' OR words = 'said "no"' OR words = 'it''s' ORDER BY id
SELECT id FROM review WHERE words = '' OR words = '\\N' OR words = '\\' ORDER BY id
SELECT DISTINCT words FROM review ORDER BY words
SELECT DISTINCT city, country FROM customer ORDER BY country DESC, city
SELECT DISTINCT placed FROM purchase WHERE note IS NOT NULL ORDER BY placed DESC
SELECT c.name, p.id, p.placed FROM customer c JOIN purchase p ON p.customer = c.id ORDER BY p.id
SELECT c.id, c.name, p.id FROM customer c LEFT JOIN purchase p ON p.customer = c.id AND p.placed > '2024-06-30'
SELECT c.id, c.name FROM customer c LEFT JOIN purchase p ON p.customer = c.id WHERE p.id IS NULL ORDER BY c.id
SELECT c.id, COUNT(p.id) AS purchases, MIN(p.placed) AS earliest, MAX(p.placed) AS latest FROM customer c
  LEFT JOIN purchase p ON p.customer = c.id GROUP BY c.id ORDER BY purchases DESC, c.id
SELECT l.purchase, SUM(l.amount) AS amount, [SUM(l.price)] AS paid FROM line l GROUP BY l.purchase ORDER BY paid DESC, l.purchase
SELECT i.category, COUNT(*) AS items, [MIN(i.price)] AS least, [MAX(i.price)] AS most FROM item i GROUP BY i.category ORDER BY i.category
SELECT g.title, COUNT(i.id) AS items, [SUM(i.price)] AS prices FROM category g LEFT JOIN item i ON i.category = g.id GROUP BY g.id, g.title
SELECT p.title, g.title AS below FROM category g LEFT JOIN category p ON g.parent = p.id
SELECT n.continent, COUNT(*) AS customers FROM country n JOIN customer c ON c.country = n.code GROUP BY n.continent ORDER BY n.continent
SELECT n.title, [SUM(l.price)] AS paid FROM country n JOIN customer c ON c.country = n.code JOIN purchase p ON p.customer = c.id
  JOIN line l ON l.purchase = p.id GROUP BY n.code, n.title ORDER BY paid, n.title
SELECT p.id, p.note, i.title FROM purchase p, line l, item i WHERE l.purchase = p.id AND l.item = i.id AND l.amount > 3
SELECT i.id, i.title FROM item i WHERE i.id NOT IN (SELECT l.item FROM line l) ORDER BY i.id
SELECT i.id FROM item i WHERE i.id NOT IN (SELECT r.item FROM review r)
SELECT i.id FROM item i WHERE i.id NOT IN (SELECT r.item FROM review r WHERE r.item IS NOT NULL) ORDER BY i.id
SELECT c.id, c.name FROM customer c WHERE EXISTS (SELECT * FROM purchase p JOIN line l ON l.purchase = p.id
  WHERE p.customer = c.id AND [l.price] > 5000) ORDER BY c.id
SELECT c.id FROM customer c WHERE NOT EXISTS (SELECT * FROM review r WHERE r.customer = c.id AND r.stars < 3) ORDER BY c.id
SELECT c.id FROM customer c WHERE c.city IN (SELECT d.city FROM customer d WHERE d.id <> c.id) ORDER BY c.id
SELECT g.id FROM category g WHERE g.id IN (SELECT i.category FROM item i WHERE i.id IN (SELECT r.item FROM review r
  WHERE r.stars = 5)) ORDER BY g.id
SELECT i.id, i.title FROM item i WHERE EXISTS (SELECT * FROM line l WHERE l.item = i.id AND [l.price] > [i.price]) ORDER BY i.id
SELECT i.id, l.purchase FROM item i JOIN line l ON l.item = i.id AND [l.price] = [i.price]
SELECT DISTINCT c.name, i.title FROM customer c JOIN review r ON r.customer = c.id JOIN item i ON r.item = i.id WHERE r.stars >= 4
SELECT r.stars, COUNT(*) AS reviews, COUNT(r.words) AS worded, MIN(r.words) AS least, MAX(r.words) AS most FROM review r
  GROUP BY r.stars ORDER BY r.stars DESC
SELECT i.title, COUNT(r.stars) AS reviews, SUM(r.stars) AS stars FROM item i LEFT JOIN review r ON r.item = i.id GROUP BY i.id, i.title
SELECT s.name, c.name AS customer FROM supplier s JOIN customer c ON c.country = s.country AND [s.limits] > 0
SELECT id, [limits] FROM supplier WHERE [limits] < 0 OR limits IS NULL ORDER BY id
SELECT COUNT(*), COUNT(paid), [SUM(paid)], MAX(reason) FROM refund
SELECT p.id, f.id FROM purchase p LEFT JOIN refund f ON f.purchase = p.id ORDER BY p.id
SELECT p.id FROM purchase p WHERE p.id NOT IN (SELECT f.purchase FROM refund f) AND p.note IS NULL ORDER BY p.id
SELECT p.placed, COUNT(*) AS lines, [SUM(l.price)] AS paid FROM purchase p JOIN line l ON l.purchase = p.id
  WHERE NOT (p.placed < '2024-03-01' OR l.amount = 1) GROUP BY p.placed ORDER BY p.placed
SELECT {c.active} AS active, COUNT(*) AS customers FROM customer c GROUP BY c.active ORDER BY active
SELECT a.id, b.id FROM customer a JOIN customer b ON a.city = b.city AND a.country = b.country WHERE a.id < b.id ORDER BY a.id, b.id
""".strip()
QUERIES = QUERIES.replace("\n  ", " ").split("\n")


def money(rng, most):
    """A price, as its engine reads it: with up to two digits behind its point."""
    return rng.choice([f"{rng.randint(0, most)}{behind}" for behind in ("", f".{rng.randint(0, 9)}", f".{rng.randint(0, 99):02}")] + [None])


def day(rng, first, last):
    return (datetime.date(first, 1, 1) + datetime.timedelta(rng.randrange(365 * (last - first)))).isoformat()


def contents(rng):
    """The rows of the tables, as texts, numbers and None. A price is a text."""
    word, some = lambda: rng.choice([*WORDS, None]), lambda most: rng.choice([rng.randint(1, most), rng.randint(1, most), None])
    code = lambda: rng.choice(["NO", "DK", "SE", "XX", None])
    stock = [0, 7, -3, 2**63 - 1, -(2**63), 10**13, None]
    price = lambda: money(rng, 99) or "0.05"
    reviews = sorted({(some(60), some(40)) for _ in range(120)}, key=str)
    return {
        "country": [("NO", "Norway", "Europe"), ("DK", "Danmark, the land", "Europe"), ("SE", "S\\weden", None), ("JP", "日本", "Asia")],
        "customer": [(at, word() or "Ada", word(), code(), rng.choice([day(rng, 1960, 2010), None]), rng.random() < 0.5) for at in range(1, 41)],
        "category": [(at, some(at), f"{rng.choice(WORDS)}{at}") for at in range(1, 13)],
        "item": [(at, some(14), word() or "thing", money(rng, 99), rng.choice(stock)) for at in range(-2, 60)],
        "purchase": [(at, some(40), day(rng, 2024, 2025), word()) for at in range(100, 220)],
        "line": [(at, place, rng.randint(-2, 45), rng.randint(1, 5), price()) for at in range(100, 210) for place in range(rng.randint(0, 4))],
        "review": [(at, *its, some(5), word()) for at, its in enumerate(reviews) if None in its or at % 7],
        "supplier": [(at, word() or "", code(), rng.choice(["9999999999.99", "-0.01", "0", "12.5", None])) for at in range(9)],
        "refund": [],
    }


def for_program(query):
    """The query as the program is asked it."""
    return re.sub(r"[\[\]{}]", "", query)


def for_engine(query, price, boolean):
    """The query as an engine is asked it: with what it makes of a price and of a boolean."""
    return re.sub(r"\{(.*?)\}", rf"{boolean}", re.sub(r"\[(.*?)\]", rf"{price}", query))


def fields_of(row):
    """A row as the program spells it."""
    return [r"\N" if value is None else "\\" + value if isinstance(value, str) and value.startswith("\\") else str(value) for value in row]
