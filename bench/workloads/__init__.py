"""The shapes of two public benchmarks, for bench/workloads.py: their tables and rows, their queries, and who answers them."""
