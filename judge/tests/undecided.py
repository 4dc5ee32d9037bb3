"""A recording of so many threads, each with one commit to a word of its own, anywhere among the others. The last bytes
of one word fit none of their orders."""

import sys

count = int(sys.argv[1])
ONE, TWO = "0100000000000000", "0200000000000000"
print("itm-recording 1\nprogram 0")
for i in range(count):
    print(f"word {4096 + 8 * i:x} {'00' * 8} {ONE if i else TWO} 1")
for i in range(count):
    print(f"attempt {i} 1 0 {count - 1} committed -\narena -\ncall _ITM_WU8 {8 * i} {ONE} = ok")
    print("call _ITM_commitTransaction = ok\nend")
print("unfinished 0")
