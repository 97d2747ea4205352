"""The 67 queries, in the program's language: TPC-H's, reports over the same tables, and the Star Schema Benchmark's."""

# By TPC-H's numbers. What the language hasn't is put otherwise: a sum of a column in place of a product's, MIN in place of a part of an average.
# q19b is q19 with its joining condition outside of the OR, q20b is q20 over a region in place of a nation.
TPCH = {
    "q01": """SELECT l_returnflag, l_linestatus, SUM(l_quantity) AS sum_qty, SUM(l_extendedprice) AS sum_base, SUM(l_revenue) AS sum_disc, COUNT(*) AS n
        FROM lineitem
        WHERE l_shipdate <= 19980902
        GROUP BY l_returnflag, l_linestatus ORDER BY l_returnflag, l_linestatus""",
    "q02": """SELECT s_acctbal, s_name, n_name, p_partkey, p_mfgr, s_phone FROM part, supplier, partsupp, nation, region
        WHERE p_partkey = ps_partkey AND s_suppkey = ps_suppkey AND p_size = 15 AND p_type3 = 'BRASS' AND s_nationkey = n_nationkey
          AND n_regionkey = r_regionkey AND r_name = 'EUROPE' AND ps_supplycost IN (SELECT MIN(ps2.ps_supplycost) FROM partsupp ps2, supplier s2,
          nation n2, region r2 WHERE p_partkey = ps2.ps_partkey AND s2.s_suppkey = ps2.ps_suppkey AND s2.s_nationkey = n2.n_nationkey
          AND n2.n_regionkey = r2.r_regionkey AND r2.r_name = 'EUROPE')
        ORDER BY s_acctbal DESC, n_name, s_name, p_partkey""",
    "q03": """SELECT l_orderkey, SUM(l_revenue) AS revenue, o_orderdate, o_shippriority FROM customer, orders, lineitem
        WHERE c_mktsegment = 'BUILDING' AND c_custkey = o_custkey AND l_orderkey = o_orderkey AND o_orderdate < 19950315 AND l_shipdate > 19950315
        GROUP BY l_orderkey, o_orderdate, o_shippriority ORDER BY revenue DESC, o_orderdate""",
    "q04": """SELECT o_orderpriority, COUNT(*) AS order_count FROM orders
        WHERE o_orderdate >= 19930701 AND o_orderdate < 19931001 AND EXISTS (SELECT * FROM lineitem WHERE l_orderkey = o_orderkey
          AND l_commitdate < l_receiptdate)
        GROUP BY o_orderpriority ORDER BY o_orderpriority""",
    "q05": """SELECT n_name, SUM(l_revenue) AS revenue FROM customer, orders, lineitem, supplier, nation, region
        WHERE c_custkey = o_custkey AND l_orderkey = o_orderkey AND l_suppkey = s_suppkey AND c_nationkey = s_nationkey
          AND s_nationkey = n_nationkey AND n_regionkey = r_regionkey AND r_name = 'ASIA' AND o_orderdate >= 19940101 AND o_orderdate < 19950101
        GROUP BY n_name ORDER BY revenue DESC""",
    "q06": """SELECT SUM(l_revenue) AS revenue FROM lineitem
        WHERE l_shipdate >= 19940101 AND l_shipdate < 19950101 AND l_discount >= 5 AND l_discount <= 7 AND l_quantity < 24""",
    "q07": """SELECT n1.n_name AS supp_nation, n2.n_name AS cust_nation, l_shipyear, SUM(l_revenue) AS revenue
        FROM supplier, lineitem, orders, customer, nation n1, nation n2
        WHERE s_suppkey = l_suppkey AND o_orderkey = l_orderkey AND c_custkey = o_custkey AND s_nationkey = n1.n_nationkey
          AND c_nationkey = n2.n_nationkey AND (n1.n_name = 'FRANCE' AND n2.n_name = 'GERMANY' OR n1.n_name = 'GERMANY' AND n2.n_name = 'FRANCE')
          AND l_shipdate >= 19950101 AND l_shipdate <= 19961231
        GROUP BY n1.n_name, n2.n_name, l_shipyear ORDER BY supp_nation, cust_nation, l_shipyear""",
    "q08": """SELECT o_year, n2.n_name AS nation, SUM(l_revenue) AS volume
        FROM part, supplier, lineitem, orders, customer, nation n1, nation n2, region
        WHERE p_partkey = l_partkey AND s_suppkey = l_suppkey AND l_orderkey = o_orderkey AND o_custkey = c_custkey AND c_nationkey = n1.n_nationkey
          AND n1.n_regionkey = r_regionkey AND r_name = 'AMERICA' AND s_nationkey = n2.n_nationkey AND o_orderdate >= 19950101
          AND o_orderdate <= 19961231 AND p_type = 'ECONOMY ANODIZED STEEL'
        GROUP BY o_year, n2.n_name ORDER BY o_year, nation""",
    "q09": """SELECT n_name, o_year, SUM(l_revenue) AS rev, SUM(ps_supplycost) AS cost FROM part, supplier, lineitem, partsupp, orders, nation
        WHERE s_suppkey = l_suppkey AND ps_suppkey = l_suppkey AND ps_partkey = l_partkey AND p_partkey = l_partkey AND o_orderkey = l_orderkey
          AND s_nationkey = n_nationkey AND (p_color = 'green' OR p_color2 = 'green')
        GROUP BY n_name, o_year ORDER BY n_name, o_year DESC""",
    "q10": """SELECT c_custkey, c_name, SUM(l_revenue) AS revenue, c_acctbal, n_name, c_phone FROM customer, orders, lineitem, nation
        WHERE c_custkey = o_custkey AND l_orderkey = o_orderkey AND o_orderdate >= 19931001 AND o_orderdate < 19940101 AND l_returnflag = 'R'
          AND c_nationkey = n_nationkey
        GROUP BY c_custkey, c_name, c_acctbal, c_phone, n_name ORDER BY revenue DESC""",
    "q11": """SELECT ps_partkey, SUM(ps_value) AS v FROM partsupp, supplier, nation
        WHERE ps_suppkey = s_suppkey AND s_nationkey = n_nationkey AND n_name = 'GERMANY'
        GROUP BY ps_partkey ORDER BY v DESC""",
    "q12": """SELECT l_shipmode, o_orderpriority, COUNT(*) AS n FROM orders, lineitem
        WHERE o_orderkey = l_orderkey AND (l_shipmode = 'MAIL' OR l_shipmode = 'SHIP') AND l_commitdate < l_receiptdate
          AND l_shipdate < l_commitdate AND l_receiptdate >= 19940101 AND l_receiptdate < 19950101
        GROUP BY l_shipmode, o_orderpriority ORDER BY l_shipmode, o_orderpriority""",
    "q13": """SELECT c_custkey, COUNT(o_orderkey) AS c_count FROM customer LEFT JOIN orders ON c_custkey = o_custkey AND o_special = 0
        GROUP BY c_custkey ORDER BY c_count DESC""",
    "q14": """SELECT p_type1, SUM(l_revenue) AS revenue FROM lineitem, part
        WHERE l_partkey = p_partkey AND l_shipdate >= 19950901 AND l_shipdate < 19951001
        GROUP BY p_type1""",
    "q15": """SELECT s_suppkey, s_name, s_phone, SUM(l_revenue) AS total FROM supplier, lineitem
        WHERE s_suppkey = l_suppkey AND l_shipdate >= 19960101 AND l_shipdate < 19960401
        GROUP BY s_suppkey, s_name, s_phone ORDER BY total DESC""",
    "q16": """SELECT p_brand, p_type, p_size, COUNT(ps_suppkey) AS supplier_cnt FROM partsupp, part
        WHERE p_partkey = ps_partkey AND p_brand <> 'Brand#45' AND p_type1 <> 'MEDIUM' AND (p_size = 49 OR p_size = 14 OR p_size = 23 OR p_size = 45
          OR p_size = 19 OR p_size = 3 OR p_size = 36 OR p_size = 9) AND ps_suppkey NOT IN (SELECT s_suppkey FROM supplier WHERE s_complaint = 1)
        GROUP BY p_brand, p_type, p_size ORDER BY supplier_cnt DESC, p_brand, p_type, p_size""",
    "q17": """SELECT SUM(l_extendedprice) AS s FROM lineitem, part
        WHERE p_partkey = l_partkey AND p_brand = 'Brand#23' AND p_container = 'MED BOX' AND l_quantity IN (SELECT MIN(l2.l_quantity)
          FROM lineitem l2 WHERE l2.l_partkey = p_partkey)""",
    "q18": """SELECT c_name, c_custkey, o_orderkey, o_orderdate, o_totalprice, SUM(l_quantity) AS q FROM customer, orders, lineitem
        WHERE o_orderkey IN (SELECT l2.l_orderkey FROM lineitem l2 WHERE l2.l_quantity >= 49 AND l2.l_discount = 10 GROUP BY l2.l_orderkey)
          AND c_custkey = o_custkey AND o_orderkey = l_orderkey
        GROUP BY c_name, c_custkey, o_orderkey, o_orderdate, o_totalprice ORDER BY o_totalprice DESC, o_orderdate""",
    "q19": """SELECT SUM(l_revenue) AS revenue FROM lineitem, part
        WHERE (p_partkey = l_partkey AND p_brand = 'Brand#12' AND (p_container = 'SM CASE' OR p_container = 'SM BOX' OR p_container = 'SM PACK'
          OR p_container = 'SM PKG') AND l_quantity >= 1 AND l_quantity <= 11 AND p_size >= 1 AND p_size <= 5 AND (l_shipmode = 'AIR'
          OR l_shipmode = 'REG AIR') AND l_shipinstruct = 'DELIVER IN PERSON') OR (p_partkey = l_partkey AND p_brand = 'Brand#23'
          AND (p_container = 'MED BAG' OR p_container = 'MED BOX' OR p_container = 'MED PKG' OR p_container = 'MED PACK') AND l_quantity >= 10
          AND l_quantity <= 20 AND p_size >= 1 AND p_size <= 10 AND (l_shipmode = 'AIR' OR l_shipmode = 'REG AIR')
          AND l_shipinstruct = 'DELIVER IN PERSON') OR (p_partkey = l_partkey AND p_brand = 'Brand#34' AND (p_container = 'LG CASE'
          OR p_container = 'LG BOX' OR p_container = 'LG PACK' OR p_container = 'LG PKG') AND l_quantity >= 20 AND l_quantity <= 30 AND p_size >= 1
          AND p_size <= 15 AND (l_shipmode = 'AIR' OR l_shipmode = 'REG AIR') AND l_shipinstruct = 'DELIVER IN PERSON')""",
    "q20": """SELECT s_name, s_phone FROM supplier, nation
        WHERE s_suppkey IN (SELECT ps_suppkey FROM partsupp WHERE ps_partkey IN (SELECT p_partkey FROM part WHERE p_color = 'forest')
          AND ps_availqty > 500 AND EXISTS (SELECT * FROM lineitem WHERE l_partkey = ps_partkey AND l_suppkey = ps_suppkey AND l_shipdate >= 19940101
          AND l_shipdate < 19950101)) AND s_nationkey = n_nationkey AND n_name = 'CANADA'
        ORDER BY s_name""",
    "q21": """SELECT s_name, COUNT(*) AS numwait FROM supplier, lineitem l1, orders, nation
        WHERE s_suppkey = l1.l_suppkey AND o_orderkey = l1.l_orderkey AND o_orderstatus = 'F' AND l1.l_receiptdate > l1.l_commitdate
          AND EXISTS (SELECT * FROM lineitem l2 WHERE l2.l_orderkey = l1.l_orderkey AND l2.l_suppkey <> l1.l_suppkey) AND NOT EXISTS (SELECT *
          FROM lineitem l3 WHERE l3.l_orderkey = l1.l_orderkey AND l3.l_suppkey <> l1.l_suppkey AND l3.l_receiptdate > l3.l_commitdate)
          AND s_nationkey = n_nationkey AND n_name = 'SAUDI ARABIA'
        GROUP BY s_name ORDER BY numwait DESC, s_name""",
    "q22": """SELECT c_cntrycode, COUNT(*) AS numcust, SUM(c_acctbal) AS totacctbal FROM customer
        WHERE (c_cntrycode = 13 OR c_cntrycode = 31 OR c_cntrycode = 23 OR c_cntrycode = 29 OR c_cntrycode = 30 OR c_cntrycode = 18
          OR c_cntrycode = 17) AND c_acctbal > 500000 AND NOT EXISTS (SELECT * FROM orders WHERE o_custkey = c_custkey)
        GROUP BY c_cntrycode ORDER BY c_cntrycode""",
    "q19b": """SELECT SUM(l_revenue) AS revenue FROM lineitem, part
        WHERE p_partkey = l_partkey AND ((p_brand = 'Brand#12' AND (p_container = 'SM CASE' OR p_container = 'SM BOX' OR p_container = 'SM PACK'
          OR p_container = 'SM PKG') AND l_quantity >= 1 AND l_quantity <= 11 AND p_size >= 1 AND p_size <= 5 AND (l_shipmode = 'AIR'
          OR l_shipmode = 'REG AIR') AND l_shipinstruct = 'DELIVER IN PERSON') OR (p_brand = 'Brand#23' AND (p_container = 'MED BAG'
          OR p_container = 'MED BOX' OR p_container = 'MED PKG' OR p_container = 'MED PACK') AND l_quantity >= 10 AND l_quantity <= 20 AND p_size >= 1
          AND p_size <= 10 AND (l_shipmode = 'AIR' OR l_shipmode = 'REG AIR') AND l_shipinstruct = 'DELIVER IN PERSON') OR (p_brand = 'Brand#34'
          AND (p_container = 'LG CASE' OR p_container = 'LG BOX' OR p_container = 'LG PACK' OR p_container = 'LG PKG') AND l_quantity >= 20
          AND l_quantity <= 30 AND p_size >= 1 AND p_size <= 15 AND (l_shipmode = 'AIR' OR l_shipmode = 'REG AIR')
          AND l_shipinstruct = 'DELIVER IN PERSON'))""",
    "q20b": """SELECT s_name, s_phone FROM supplier, nation
        WHERE s_suppkey IN (SELECT ps_suppkey FROM partsupp WHERE ps_partkey IN (SELECT p_partkey FROM part WHERE p_color = 'forest')
          AND ps_availqty > 500 AND EXISTS (SELECT * FROM lineitem WHERE l_partkey = ps_partkey AND l_suppkey = ps_suppkey AND l_shipdate >= 19940101
          AND l_shipdate < 19950101)) AND s_nationkey = n_nationkey AND n_regionkey = 1
        ORDER BY s_name""",
}

# As views and query builders write them: NOT IN and EXISTS, joins in the order of the text, LEFT JOINs whose right side WHERE asks about.
REPORTS = {
    "r01": """SELECT c_custkey FROM customer
        WHERE c_custkey NOT IN (SELECT o_custkey FROM orders WHERE o_orderkey NOT IN (SELECT l_orderkey FROM lineitem WHERE l_returnflag = 'R'))
        ORDER BY c_custkey""",
    "r02": """SELECT o_orderkey FROM orders
        WHERE o_totalprice > 35000000 AND (o_orderpriority = '1-URGENT' OR EXISTS (SELECT * FROM lineitem WHERE l_orderkey = o_orderkey
          AND l_shipmode = 'AIR' AND l_quantity = 50))""",
    "r03": """SELECT DISTINCT c_name, n_name FROM customer, nation, orders, lineitem
        WHERE c_nationkey = n_nationkey AND o_custkey = c_custkey AND l_orderkey = o_orderkey AND l_shipmode = 'RAIL'""",
    "r04": """SELECT n_name, COUNT(c_custkey) AS customers FROM nation LEFT JOIN customer ON c_nationkey = n_nationkey AND c_acctbal < 0
        GROUP BY n_name ORDER BY n_name""",
    "r05": """SELECT p_brand, COUNT(l_orderkey) AS n, SUM(l_revenue) AS rev
        FROM part LEFT JOIN lineitem ON l_partkey = p_partkey AND l_shipyear = 1997
        GROUP BY p_brand ORDER BY p_brand""",
    "r06": """SELECT c_custkey FROM customer LEFT JOIN orders ON o_custkey = c_custkey
        WHERE o_orderkey IS NULL""",
    "r07": """SELECT c_name, o_orderkey, l_linenumber
        FROM customer LEFT JOIN orders ON o_custkey = c_custkey LEFT JOIN lineitem ON l_orderkey = o_orderkey
        WHERE l_quantity = 50 AND o_orderpriority = '1-URGENT' AND c_mktsegment = 'BUILDING'""",
    "r08": """SELECT c_name, o_orderkey FROM customer LEFT JOIN orders ON o_custkey = c_custkey
        WHERE c_custkey = 77""",
    "r09": """SELECT o_orderkey, c_name FROM orders JOIN customer ON o_custkey = c_custkey
        WHERE o_custkey = 77""",
    "r10": """SELECT l1.l_orderkey FROM lineitem l1, orders, lineitem l2
        WHERE l1.l_orderkey = o_orderkey AND l2.l_orderkey = o_orderkey AND l1.l_quantity = 50 AND l2.l_quantity = 50
          AND l1.l_linenumber < l2.l_linenumber""",
    "r11": """SELECT s_name FROM supplier
        WHERE NOT EXISTS (SELECT * FROM part WHERE p_size = 7 AND p_type3 = 'TIN' AND p_brand = 'Brand#11' AND NOT EXISTS (SELECT * FROM partsupp
          WHERE ps_partkey = p_partkey AND ps_suppkey = s_suppkey))""",
    "r12": """SELECT c_custkey, c_name FROM customer
        WHERE EXISTS (SELECT * FROM orders WHERE o_custkey = c_custkey AND o_totalprice > 40000000)""",
    "r13": """SELECT c_custkey, c_name FROM customer
        WHERE c_custkey IN (SELECT o_custkey FROM orders WHERE o_totalprice > 40000000)""",
    "r14": """SELECT o_orderkey FROM orders
        WHERE o_orderkey IN (SELECT l_orderkey FROM lineitem WHERE l_shipmode = 'AIR')""",
    "r15": """SELECT o_orderkey FROM orders
        WHERE o_orderkey NOT IN (SELECT l_orderkey FROM lineitem WHERE l_shipmode = 'AIR')""",
    "r16": """SELECT p_partkey FROM part
        WHERE NOT EXISTS (SELECT * FROM lineitem WHERE l_partkey = p_partkey AND l_shipyear = 1998)""",
    "r17": """SELECT o_orderpriority, COUNT(*) AS n
        FROM orders JOIN customer ON c_custkey = o_custkey JOIN nation ON n_nationkey = c_nationkey JOIN region ON r_regionkey = n_regionkey
        WHERE r_name = 'ASIA'
        GROUP BY o_orderpriority""",
    "r18": """SELECT n_name, SUM(o_totalprice) AS s FROM orders, customer, nation
        WHERE o_custkey = c_custkey AND c_nationkey = n_nationkey
        GROUP BY n_name ORDER BY s DESC""",
    "r19": """SELECT o1.o_orderkey, o2.o_orderkey AS o2
        FROM orders o1 JOIN orders o2 ON o1.o_custkey = o2.o_custkey AND o1.o_orderdate = o2.o_orderdate AND o1.o_orderkey < o2.o_orderkey""",
    "r20": """SELECT c_custkey, COUNT(*) AS n FROM customer, orders
        WHERE c_custkey = o_custkey AND o_totalprice IN (SELECT MAX(o2.o_totalprice) FROM orders o2 WHERE o2.o_custkey = c_custkey)
        GROUP BY c_custkey""",
    "r21": """SELECT DISTINCT o_custkey FROM orders, lineitem
        WHERE o_orderkey = l_orderkey AND l_returnflag = 'R'
        ORDER BY o_custkey""",
    "r22": """SELECT l_orderkey, l_linenumber, l_quantity FROM lineitem
        WHERE l_orderkey = 4711 OR l_orderkey = 4712 OR l_orderkey = 4705""",
    "r23": """SELECT o_orderkey, o_totalprice FROM orders
        WHERE o_custkey = 77 AND o_orderkey IN (SELECT l_orderkey FROM lineitem WHERE l_partkey < 1000)""",
    "r24": """SELECT c_name FROM customer
        WHERE c_nationkey IN (SELECT n_nationkey FROM nation WHERE n_regionkey IN (SELECT r_regionkey FROM region WHERE r_name = 'ASIA'))
          AND c_custkey NOT IN (SELECT o_custkey FROM orders WHERE o_year = 1996)""",
    "r25": """SELECT s_name, n_name, r_name
        FROM supplier LEFT JOIN nation ON s_nationkey = n_nationkey LEFT JOIN region ON n_regionkey = r_regionkey
        WHERE r_name = 'EUROPE' AND s_suppkey IN (SELECT ps_suppkey FROM partsupp WHERE ps_supplycost < 200)""",
    "r26": """SELECT c_mktsegment, o_year, COUNT(*) AS n, SUM(l_revenue) AS rev
        FROM lineitem JOIN orders ON l_orderkey = o_orderkey JOIN customer ON o_custkey = c_custkey
        GROUP BY c_mktsegment, o_year ORDER BY c_mktsegment, o_year""",
    "r27": """SELECT o_orderkey, o_orderdate FROM orders
        ORDER BY o_orderdate DESC, o_orderkey""",
    "r28": """SELECT c_custkey, o_orderkey FROM customer LEFT JOIN orders ON c_custkey = o_custkey AND o_orderdate >= 19980101
        WHERE c_nationkey = 7
        ORDER BY c_custkey, o_orderkey""",
    "r29": """SELECT l_orderkey, SUM(l_quantity) AS q FROM lineitem
        GROUP BY l_orderkey ORDER BY l_orderkey""",
    "r30": """SELECT p_partkey, s_suppkey FROM part, supplier
        WHERE p_size = 7 AND p_brand = 'Brand#33' AND s_acctbal > 900000 AND NOT EXISTS (SELECT * FROM partsupp WHERE ps_partkey = p_partkey
          AND ps_suppkey = s_suppkey)""",
}

# By flight and number.
SSB = {
    "s11": """SELECT SUM(lo_extdisc) AS revenue FROM lineorder, date
        WHERE lo_orderdate = d_datekey AND d_year = 1993 AND lo_discount >= 1 AND lo_discount <= 3 AND lo_quantity < 25""",
    "s12": """SELECT SUM(lo_extdisc) AS revenue FROM lineorder, date
        WHERE lo_orderdate = d_datekey AND d_yearmonthnum = 199401 AND lo_discount >= 4 AND lo_discount <= 6 AND lo_quantity >= 26
          AND lo_quantity <= 35""",
    "s13": """SELECT SUM(lo_extdisc) AS revenue FROM lineorder, date
        WHERE lo_orderdate = d_datekey AND d_weeknuminyear = 6 AND d_year = 1994 AND lo_discount >= 5 AND lo_discount <= 7 AND lo_quantity >= 26
          AND lo_quantity <= 35""",
    "s21": """SELECT SUM(lo_revenue) AS rev, d_year, p_brand1 FROM lineorder, date, part, supplier
        WHERE lo_orderdate = d_datekey AND lo_partkey = p_partkey AND lo_suppkey = s_suppkey AND p_category = 'MFGR#12' AND s_region = 'AMERICA'
        GROUP BY d_year, p_brand1 ORDER BY d_year, p_brand1""",
    "s22": """SELECT SUM(lo_revenue) AS rev, d_year, p_brand1 FROM lineorder, date, part, supplier
        WHERE lo_orderdate = d_datekey AND lo_partkey = p_partkey AND lo_suppkey = s_suppkey AND p_brand1 >= 'MFGR#2221' AND p_brand1 <= 'MFGR#2228'
          AND s_region = 'ASIA'
        GROUP BY d_year, p_brand1 ORDER BY d_year, p_brand1""",
    "s23": """SELECT SUM(lo_revenue) AS rev, d_year, p_brand1 FROM lineorder, date, part, supplier
        WHERE lo_orderdate = d_datekey AND lo_partkey = p_partkey AND lo_suppkey = s_suppkey AND p_brand1 = 'MFGR#2239' AND s_region = 'EUROPE'
        GROUP BY d_year, p_brand1 ORDER BY d_year, p_brand1""",
    "s31": """SELECT c_nation, s_nation, d_year, SUM(lo_revenue) AS revenue FROM customer, lineorder, supplier, date
        WHERE lo_custkey = c_custkey AND lo_suppkey = s_suppkey AND lo_orderdate = d_datekey AND c_region = 'ASIA' AND s_region = 'ASIA'
          AND d_year >= 1992 AND d_year <= 1997
        GROUP BY c_nation, s_nation, d_year ORDER BY d_year, revenue DESC""",
    "s32": """SELECT c_city, s_city, d_year, SUM(lo_revenue) AS revenue FROM customer, lineorder, supplier, date
        WHERE lo_custkey = c_custkey AND lo_suppkey = s_suppkey AND lo_orderdate = d_datekey AND c_nation = 'UNITED STATES'
          AND s_nation = 'UNITED STATES' AND d_year >= 1992 AND d_year <= 1997
        GROUP BY c_city, s_city, d_year ORDER BY d_year, revenue DESC""",
    "s33": """SELECT c_city, s_city, d_year, SUM(lo_revenue) AS revenue FROM customer, lineorder, supplier, date
        WHERE lo_custkey = c_custkey AND lo_suppkey = s_suppkey AND lo_orderdate = d_datekey AND (c_city = 'UNITED_KI1' OR c_city = 'UNITED_KI5')
          AND (s_city = 'UNITED_KI1' OR s_city = 'UNITED_KI5') AND d_year >= 1992 AND d_year <= 1997
        GROUP BY c_city, s_city, d_year ORDER BY d_year, revenue DESC""",
    "s34": """SELECT c_city, s_city, d_year, SUM(lo_revenue) AS revenue FROM customer, lineorder, supplier, date
        WHERE lo_custkey = c_custkey AND lo_suppkey = s_suppkey AND lo_orderdate = d_datekey AND (c_city = 'UNITED_KI1' OR c_city = 'UNITED_KI5')
          AND (s_city = 'UNITED_KI1' OR s_city = 'UNITED_KI5') AND d_yearmonth = 'Dec1997'
        GROUP BY c_city, s_city, d_year ORDER BY d_year, revenue DESC""",
    "s41": """SELECT d_year, c_nation, SUM(lo_profit) AS profit FROM date, customer, supplier, part, lineorder
        WHERE lo_custkey = c_custkey AND lo_suppkey = s_suppkey AND lo_partkey = p_partkey AND lo_orderdate = d_datekey AND c_region = 'AMERICA'
          AND s_region = 'AMERICA' AND (p_mfgr = 'MFGR#1' OR p_mfgr = 'MFGR#2')
        GROUP BY d_year, c_nation ORDER BY d_year, c_nation""",
    "s42": """SELECT d_year, s_nation, p_category, SUM(lo_profit) AS profit FROM date, customer, supplier, part, lineorder
        WHERE lo_custkey = c_custkey AND lo_suppkey = s_suppkey AND lo_partkey = p_partkey AND lo_orderdate = d_datekey AND c_region = 'AMERICA'
          AND s_region = 'AMERICA' AND (d_year = 1997 OR d_year = 1998) AND (p_mfgr = 'MFGR#1' OR p_mfgr = 'MFGR#2')
        GROUP BY d_year, s_nation, p_category ORDER BY d_year, s_nation, p_category""",
    "s43": """SELECT d_year, s_city, p_brand1, SUM(lo_profit) AS profit FROM date, customer, supplier, part, lineorder
        WHERE lo_custkey = c_custkey AND lo_suppkey = s_suppkey AND lo_partkey = p_partkey AND lo_orderdate = d_datekey AND c_region = 'AMERICA'
          AND s_nation = 'UNITED STATES' AND (d_year = 1997 OR d_year = 1998) AND p_category = 'MFGR#14'
        GROUP BY d_year, s_city, p_brand1 ORDER BY d_year, s_city, p_brand1""",
}

QUERIES = {"tpch": TPCH | REPORTS, "ssb": SSB}

# What takes no more time than loading all tables of the shape.
TRIVIAL = {"tpch": "SELECT r_name FROM region", "ssb": "SELECT d_year FROM date WHERE d_year < 0"}
