"""Lines of calls with answers that were written by hand: the test of the model. `~` in an answer is any text, and
`{33: 1..32}` means a state (see `state`).

The answers come from the specification's own examples, from the byte vectors of its formats, and from the published vectors of
MurmurHash3. `check()` compares the model's answers with them.
"""
import re
import sys

from calls_language import answer
from calls_words import agree

EXACT = "theta=9223372036854775807"
MAX = "9223372036854775807"

# Tables: rebuilds, trims, resets, thresholds, the slots that a table begins with, and tables of operators.
TABLES = """
theta_table lg_k=5: insert 1..61; see | made; true*61; t{33: 1..32}
theta_table lg_k=5: insert 62..1; see; trim; see | made; true*62; t{34: 1..33}; ok; t{33: 1..32}
theta_table lg_k=7 factor=2: threshold; insert 1..16; threshold; insert 17; threshold; insert 18..33; threshold; insert 34..65; threshold | made; 16; true*16; 16; true; 32; true*16; 64; true*32; 240
theta_table lg_k=7 factor=2: insert 1..241; threshold; see; reset; threshold; see | made; true*241; 240; t{129: 1..128}; ok; 16; t{MAX: }
theta_table lg_k=7: insert 1..16; threshold; insert 17; threshold; size | made; true*16; 16; true; 240; 2048
theta_table lg_k=5 factor=2: insert 1..16; threshold; insert 17; threshold; insert 18..61; threshold; see | made; true*16; 16; true; 60; true*44; 60; t{33: 1..32}
theta_table lg_k=6 factor=2: insert 1..17; threshold; insert 18..33; threshold; insert 34..121; threshold; see | made; true*17; 32; true*16; 120; true*88; 120; t{65: 1..64}
theta_table lg_k=4: insert 1..31; threshold; see | made; true*31; 30; t{17: 1..16}
theta_table lg_k=4 factor=1: insert 32..1; see; trim; see | made; true*32; t{18: 1..17}; ok; t{17: 1..16}
theta_table lg_k=5 factor=1: size | made; 512
theta_table lg_k=5 factor=2: size | made; 256
theta_table lg_k=5 factor=4: size | made; 512
theta_table lg_k=5: size | made; 512
theta_table lg_k=6 factor=4: size | made; 256
theta_table lg_k=7 factor=4: size | made; 512
theta_table lg_k=7: size | made; 256
theta_table factor=1: size | made; 65536
theta_table factor=4: size | made; 256
theta_table: size | made; 1024
theta_table lg_k=3: see | argument
theta_table lg_k=27: see | argument
theta_table start=0: see | argument
theta_table start=9223372036854775808: see | argument
theta_table seed=50541: see | argument
refusing theta_table lg_k=5: insert 0; insert 1..31; insert 5; reset; trim | made/+; false/0; true*31/0; false/0; ok/0; ok/0
refusing theta_table lg_k=5: insert 1..60; insert 61; see | made/+; true*60/0; true/+; t{33: 1..32}/0
operator_table lg_cur=3 lg_nom=2: room; insert 1..8; room | made; true; true*7,condition; false
operator_table: room; insert 0; insert 5 | made; false; false; condition
trait_table lg_k=5: run insert:62..1 find:34 find:33 trim find:33 reset | made; 62 0 1 32/33 0 0/MAX
plain_table lg_k=5: run insert:62..1 find:34 find:33 trim find:33 reset; see | made; 62 0 1 32/33 0 0/MAX; count=0 theta=MAX []
tuple_table lg_k=5: insert 5:3; insert 5:4; insert 5:18446744073709551615; see | made; true; false; policy; t{MAX: 5:7}
"""

# The hash, seed hashes, small numbers and cursors.
BASE = """
base: starting_sub_multiple 13 5 3; starting_sub_multiple 5 5 0; starting_sub_multiple 9 5 0; rebuild_size 0; rebuild_size 1; rebuild_size 30; rebuild_size 31 | made; 7; 5; 9; 1; 1; 5; 6
base: seed_hash 9001 argument; seed_hash 50541 data; check_seed_hash 1 2 memory; check_seed_hash 2 2 memory | made; 37836; data; memory; ok
base: family theta; family tuple; validate theta 3; validate tuple 3; factor 4 | made; 3 1 3; 9 1 3; ok; data; 2 4
murmur seed=0: finish128; bytes 54686520717569636b2062726f776e20666f78206a756d7073206f76657220746865206c617a7920646f67; finish128 | made; 0000000000000000 0000000000000000; ok; e34bbc7bbc071b6c 7a433ca9c49a9347
murmur seed=0: bytes 54686520717569636b2062; bytes 726f776e20; bytes 666f78206a756d7073206f76657220746865206c617a7920646f67; finish | made; ok; ok; ok; e34bbc7bbc071b6c
slice 010203: u16; u16; remaining | made; 513; data; 03
bytes: u32 1; i64 -1; write 0102; see | made; ok; ok; ok; 01000000ffffffffffffffff0102
theta_table lg_k=5: hash text:ann | made; 5478876170378336244
theta_compact compact:/: serialize | made; 01030300001e0000
theta_sketch lg_k=5: update text:apple; see | made; ok; nonempty EXACT count=1 ~
"""

# Sketches: screened hashes, starting thetas, images, order and fractions.
SKETCHES = """
theta_sketch: hash 0; see; compact ordered | made; ok; nonempty EXACT count=0 estimate=0/MAX exact ~; nonempty ~ image=02030300001acc930000000000000000
theta_sketch: hash max; compact ordered | made; ok; nonempty ~ image=02030300001acc930000000000000000
theta_sketch start=1000: see; compact ordered; hash 2000; see; compact ordered | made; empty EXACT count=0 estimate=0/1 exact ~; empty ~ image=01030300001e0000; ok; nonempty theta=1000 count=0 estimate=0/1000 estimating ~; nonempty ~ image=03030300001acc930000000000000000e803000000000000
theta_sketch: hash 5; compact unordered | made; ok; nonempty EXACT count=1 ~ ordered size=8 [5] image=01030300001acc930500000000000000
theta_sketch lg_k=5: hash 1..61; see | made; ok*61; nonempty theta=33 count=32 estimate=295147905179352825824/33 estimating ~
theta_sketch lg_k=12: update i32:0..1999; see | made; ok*2000; nonempty EXACT count=2000 ~ exact ~
theta_sketch lg_k=5: update i32:0..4999; see | made; ok*5000; nonempty ~ estimating ~
theta_sketch lg_k=3: see | argument
theta_sketch lg_k=27: see | argument
theta_sketch start=0: see | argument
theta_sketch start=9223372036854775808: see | argument
theta_sketch seed=50541: see | argument
tuple_sketch sums:u32: hash 9:4294967295; hash 9:1; see | made; ok; policy; nonempty EXACT count=1 ~ [9:4294967295]
tuple_sketch sums:u32: hash 9:3; hash 9:4; see | made; ok; ok; nonempty EXACT count=1 ~ [9:7]
tuple_sketch sums:i32: hash 9:-5; hash 9:2; see | made; ok; ok; nonempty EXACT count=1 ~ [9:-3]
tuple_sketch least: hash 9:3; hash 9:7; hash 9:2; see | made; ok; ok; ok; nonempty EXACT count=1 ~ [9:2]
tuple_sketch least: hash 9:18446744073709551615; hash 5:0; see | made; ok; ok; nonempty EXACT count=2 ~ [5:0 9:18446744073709551615]
tuple_sketch greatest: hash 9:3; hash 9:7; hash 9:5; see | made; ok; ok; ok; nonempty EXACT count=1 ~ [9:7]
tuple_sketch refuses:3: hash 9:3; see | made; policy; empty EXACT count=0 ~ []
tuple_sketch unmade: hash 9:3; see; hash 0:3; see | made; memory; empty ~; ok; nonempty ~
tuple_sketch sums:u64: update text:apple:1; update text:apple:1; see | made; ok; ok; nonempty EXACT count=1 ~
tuple_sketch sums:i32: hash 5:2147483647; hash 5:1; hash 6:-2147483648; hash 6:-1; hash 6:2147483647; see | made; ok; policy; ok; policy; ok; nonempty ~ [5:2147483647 6:-1]
tuple_sketch sums:u64: hash 5:18446744073709551615; hash 5:0; see | made; ok; ok; nonempty ~ [5:18446744073709551615]
tuple_sketch sums:i64: hash 5:9223372036854775807; hash 5:1; hash 6:-9223372036854775808; hash 6:-1 | made; ok; policy; ok; policy
tuple_sketch sums:u64 start=4: hash 5:18446744073709551615; hash 5:1; see | made; ok; ok; nonempty theta=4 count=0 ~ []
tuple_sketch sums:u64 lg_k=5: hash 1..33:1; trim; see | made; ok*33; ok; nonempty theta=33 count=32 ~
tuple_sketch sums:u64 lg_k=5: hash 5:3; hash 5:4; compact ordered | made; ok; ok; ~ image=01030901001acc9305000000000000000700000000000000
tuple_sketch unwritten lg_k=5: hash 5:3; compact ordered | made; ok; memory
"""

# Unions, intersections and differences.
OPERATORS = """
union_state lg_k=5: update sketch:lg_k=5/1..40; update sketch:lg_k=5/21..60; state ordered | made; ok; ok; {33: 1..32}
theta_union lg_k=5: update sketch:lg_k=5/1..199/2; update sketch:lg_k=5/2..200/2; to_sketch ordered | made; ok; ok; nonempty theta=33 count=32 ~ image=03030300001acc93200000000000000021000000000000000100000000000000~
theta_union lg_k=5: update sketch:lg_k=5/2..200/2; update unordered:lg_k=5/1..199/2; to_sketch ordered | made; ok; ok; nonempty theta=33 count=32 ~ image=03030300001acc93200000000000000021000000000000000100000000000000~
union_state lg_k=5: update sketch:lg_k=5/1..32; state ordered; update sketch:lg_k=5/40; state ordered | made; ok; {MAX: 1..32}; ok; {40: 1..32}
union_state lg_k=5 start=1000: update sketch:lg_k=5/2000; state ordered | made; ok; {1000: }
union_state lg_k=5: state ordered; update sketch:seed=7/; state ordered; update sketch:seed=7/5; state ordered | made; {empty}; ok; {empty}; argument; {empty}
union_state lg_k=6: update sketch:lg_k=5/1..40,trim; state ordered; reset; update sketch:lg_k=6/1..40; state ordered | made; ok; {33: 1..32}; ok; ok; {MAX: 1..40}
union_state lg_k=5: update sketch:start=10,lg_k=5/1..40; state ordered | made; ok; {10: 1..9}
union_state lg_k=6: update sketch:lg_k=7/1..100; lower_lg_k 5; state ordered; lower_lg_k 6; lower_lg_k 5; reset; update sketch:lg_k=7/1..100; state ordered | made; ok; ok; {33: 1..32}; argument; ok; ok; ok; {33: 1..32}
union_state lg_k=6: lower_lg_k 5; update sketch:lg_k=7/1..100; state ordered | made; ok; ok; {33: 1..32}
union_state lg_k=5: update sketch:lg_k=5/1..40; lower_lg_k 4; state ordered; lower_lg_k 3 | made; ok; ok; {17: 1..16}; argument
union_state lg_k=4: update sketch:lg_k=4/1..20; update sketch:lg_k=4/11..30; state ordered | made; ok; ok; {17: 1..16}
tuple_union_state: update sketch:/5:18446744073709551615,6:1; update sketch:/5:1; update sketch:/; update sketch:seed=7/5:1; state ordered; lower_lg_k 12; reset; update sketch:/5:1; state ordered | made; ok; policy; failed; failed; failed; failed; ok; ok; {MAX: 5:1}
tuple_union_state: update sketch:/2:1,5:18446744073709551615; update sketch:start=4/2:1; update sketch:/5:1; state ordered | made; ok; ok; ok; {4: 2:2}
tuple_union digits: update sketch:/5:1; update sketch:/5:2; update sketch:/5:3; to_sketch ordered | made; ok; ok; ok; ~ [5:123] image=~
tuple_union digits: update_all [sketch:/5:3 sketch:/5:2 sketch:/5:1]; to_sketch ordered | made; ok; ~ [5:321] image=~
tuple_intersection digits: update sketch:/5:3; update sketch:/5:2; update sketch:/5:1; to_sketch ordered | made; ok; ok; ok; ~ [5:321] image=~
intersection_state: has_result; state ordered; update sketch:/1,2; update sketch:/3,4; update sketch:start=1000/7; state ordered | made; false; none; ok; ok; ok; {empty}
intersection_state: update sketch:start=1000/7; update sketch:/1,2; update sketch:/3,4; state ordered | made; ok; ok; ok; {1000: }
intersection_state: update sketch:seed=7/1; has_result; update sketch:seed=7/; update sketch:seed=7/1; state ordered | made; argument; false; ok; ok; {empty}
tuple_intersection_state: update sketch:/5:3,6:1; update sketch:/5:4; state ordered | made; ok; ok; {MAX: 5:7}
tuple_intersection_state: update sketch:/5:18446744073709551615,6:1; update sketch:/5:1,6:1; state ordered; update sketch:/6:2; state ordered | made; ok; policy; {MAX: 5:18446744073709551615 6:1}; ok; {MAX: 6:3}
difference: compute sketch:/1..5 sketch:start=4/2 ordered; compute sketch:/1..5 sketch:start=4/2 unordered | made; {4: 1 3}; u{4: 1 3}
difference: compute compact:/1,2 sketch:/ unordered; compute sketch:seed=7/ sketch:/5 unordered; compute sketch:/5 sketch:/5 ordered | made; {MAX: 1 2}; empty EXACT count=0 seed_hash=36786 ordered []; {empty}
difference: compute sketch:/ sketch:seed=7/1 ordered; compute sketch:seed=7/1 sketch:/ ordered; compute sketch:/1 sketch:seed=7/1 ordered; compute sketch:/1 sketch:seed=7/ ordered | made; {empty}; argument; argument; {MAX: 1}
difference: tuples sketch:/5:3,6:1 sketch:/5 ordered | made; {MAX: 6:1}
theta_intersection seed=50541: has_result | argument
theta_difference seed=50541: seed_hash | argument
theta_difference: compute sketch:/text:apple,text:banana sketch:/text:banana ordered | made; nonempty EXACT count=1 ~
tuple_union sums:u64: update sketch:/text:apple:1,text:banana:1; update sketch:/text:banana:1,text:cherry:1; to_sketch unordered | made; ok; ok; nonempty EXACT count=3 ~
"""

# Images: the byte vectors of the formats, and changes of them.
IMAGES = """
theta_compact image:01030300001e0000: see; serialize | made; empty EXACT count=0 ~ seed_hash=37836 ordered ~ []; 01030300001e0000
theta_compact image:01030300001acc930500000000000000: see | made; nonempty EXACT count=1 ~ ordered ~ [5]
theta_compact image:01030300000acc930500000000000000: see; serialize | made; nonempty EXACT count=1 ~ unordered ~ [5]; 01030300000acc930500000000000000
theta_compact image:02030300001acc93020000000000000007000000000000000900000000000000: see | made; nonempty EXACT count=2 ~ ordered ~ [7 9]
theta_compact image:02030300001acc93020000000000000009000000000000000700000000000000: see | data
theta_compact image:02030300000acc93020000000000000009000000000000000700000000000000: see | made; nonempty EXACT count=2 ~ unordered ~ [9 7]
theta_compact image:03030300001acc93010000000000000064000000000000000700000000000000: see | made; nonempty theta=100 count=1 ~ ordered ~ [7]
theta_compact image:03030300001acc93010000000000000064000000000000006400000000000000: see | data
theta_compact image:03030300001acc93010000000000000000000000000000000700000000000000: see | data
theta_compact image:03030300001acc93ffffffff0000000064000000000000000700000000000000: see | data
theta_compact image:01030300001acd930500000000000000: see | data
theta_compact image:0102030000000000: see | made; empty EXACT ~
theta_compact image:020203000000cc93020000000000000007000000000000000900000000000000: see | made; nonempty EXACT count=2 ~ ordered ~ [7 9]
theta_compact image:02020300000034120000000000000000: see | made; empty EXACT count=0 ~ seed_hash=37836 ~
theta_compact image:0301030000000000020000000000000064000000000000000700000000000000090000000000000000: see | made; nonempty theta=100 count=2 ~ ordered ~ [7 9]
theta_compact image:030103000000000002000000000000006400000000000000070000000000000009000000000000: see | data
theta_compact image:03010300000000000200000000000000640000000000000009000000000000000700000000000000: see | data
theta_compact image:04030300001acc93: see | data
theta_compact image:01030500001e0000: see | data
theta_compact image:: see | data
theta_compact image:01030300001e00: see | data
theta_compact image:01030300001acc930500000000000000ffff: see | made; nonempty EXACT count=1 ~ [5]
theta_compact image:01030300001acc93ffffffffffffff7f: see | data
theta_compact image:01030300001acc930000000000000000: see | data
theta_compact image:02030300000acc93020000000000000005000000000000000500000000000000: see | data
theta_compact image:01030300001e3412: see | made; empty EXACT count=0 ~ seed_hash=37836 ~
theta_compact image:01030300001acc93020000000000000007000000000000000900000000000000: see | made; nonempty EXACT count=1 ~ [2]
theta_compact image:03030300001acc93020000000000000007000000000000000900000000000000: see | data
theta_compact image:02030300001ecc93020000000000000007000000000000000900000000000000: see | made; empty EXACT ~
theta_compact image:03030300001acc930100000000000000ffffffffffffff7f0700000000000000: see; serialize | made; nonempty EXACT count=1 ~ exact ~ [7]; 01030300001acc930700000000000000
theta_compact image:03030300001acc93010000000000000000000000000000800700000000000000: see | data
theta_compact image:03030300001acc93010000000000000007000000000000000700000000000000: see | data
theta_compact image:03010300000000000000000000000000ffffffffffffff7f07000000000000000900000000000000: see | made; empty EXACT ~
theta_compact image:01010300000000000200000000000000640000000000000007000000000000000900000000000000: see | made; nonempty theta=100 count=2 ~ [7 9]
theta_compact image:04010300000000000200000000000000640000000000000007000000000000000900000000000000: see | data
theta_compact image:02030300000acc930300000000000000090000000000000007000000000000000900000000000000: see | data
theta_compact image:01030300001acc930500000000000000@50541: see | data
tuple_compact sums:u64 image:01030901001e0000: see | made; empty EXACT ~
tuple_compact sums:u64 image:01030901001acc9305000000000000000700000000000000: see | made; nonempty EXACT count=1 ~ ordered ~ [5:7]
tuple_compact sums:i32 image:01030901001acc930600000000000000ffffffff: see | made; nonempty EXACT count=1 ~ [6:-1]
tuple_compact sums:i32 image:01010905001acc930600000000000000ffffffff: see; serialize | made; nonempty EXACT count=1 ~ [6:-1]; 01030901001acc930600000000000000ffffffff
tuple_compact sums:i32 image:01030901001acc930600000000000000ffffff: see | data
tuple_compact sums:u64 image:01030902001acc9305000000000000000700000000000000: see | data
tuple_compact sums:u64 image:01020901001acc9305000000000000000700000000000000: see | data
tuple_compact letters image:01030901001acc930500000000000000026162: see | made; nonempty EXACT count=1 ~ [5:ab]
tuple_compact letters image:01030901001acc9305000000000000000261: see | data
tuple_compact sums:u64 image:02030901000acc930200000000000000050000000000000001000000000000000500000000000000010000000000000: see | unknown
tuple_compact sums:u64 image:02030901000acc9302000000000000000500000000000000010000000000000005000000000000000100000000000000: see | data
"""

# Plans and the program.
PLANS = """
run: theta show/leaf 5 max 2/add 7/add 3 | made; 0 answered 2 empty no/theta MAX/count 2/3/7/
run: tuple show/union 5 max 2/leaf 5 max 2/add 5 3/add 6 1/leaf 5 max 1/add 5 4 | made; 0 answered 2 empty no/theta MAX/count 2/5 7/6 1/
run: theta image/union 5 max 0/; theta show/meet 0 | made; 0 answered 2 01030300001e0000/; 1 answered 2 error 2 syntax/
run: theta show/leaf 5 max 2/add 7; theta show/leaf 3 max 0 | made; 1 answered 2 error 4 syntax/; 1 answered 2 error argument/
run: tuple show/leaf 5 max 2/add 9 18446744073709551615/add 9 1 | made; 1 answered 2 error policy/
run: tuple show/union 5 max 3/leaf 5 max 1/add 5 18446744073709551615/leaf 5 max 1/add 5 1/leaf 27 max 0 | made; 1 answered 2 error policy/
run fails=10:other: theta show/leaf 5 max 1/add 7 | made; 2 not_read ~ -
run endless=yes: theta show/leaf 5 max 1/add 7 | made; 2 not_read ~ -
run room=5: theta show/leaf 5 max 1/add 7 | made; 2 not_written ~
plan tuple show/via unordered/leaf 5 max 1/add 5 7: tuple unwritten 9001; sums 9001; tuple unmade 9001; levels | made; memory; {MAX: 5:7}; memory; 2
plan tuple show/leaf 5 max 1/add 5 7: tuple unwritten 9001; tuple refuses:13 9001 | made; {MAX: 5:7}; {MAX: 5:7}
plan theta show/minus/leaf 5 max 5/add 1/add 2/add 3/add 4/add 5/leaf 5 4 1/add 2: evaluate 9001; evaluate 50541 | made; {4: 1 3}; argument
plan theta show/union 6 max 2/lower 5/lower 6: evaluate 9001 | made; argument
plan theta show/meet 1/lower 5: levels | made; syntax 3
plan theta show/leaf 5 max 1/add 007: shape; evaluate 9001 | made; theta show/leaf 5 MAX 1/add 7/; {MAX: 7}
plan theta show/leaf 256 max 0: levels | made; syntax 2
plan theta show/leaf 5 max 4294967295: levels | made; syntax 3
built via 63: levels; evaluate | made; 64; {MAX: 7}
built via 64: levels | argument
estimates: constants | made; MAX 19 9001 3 1 1 5 01030901001e0000
texts: image - | made; 01030300001e0000
"""


def listed(words):
    """The entries of words like `1..32` and `5:7`."""
    entries = []
    for word in words.split():
        first, dots, last = word.partition("..")
        entries += [str(hash) for hash in range(int(first), int(last) + 1)] if dots else [word]
    return entries


def state(found):
    """The answer that `{33: 1..32}` means: a state, ordered but for `u{..}`; `t{..}` is a table."""
    form, theta, words = found.groups()
    if theta == "empty":
        return f"empty {EXACT} count=0 seed_hash=37836 ordered []"
    entries = listed(words)
    shown = "[" + " ".join(entries) + "]"
    if form == "t":
        return f"count={len(entries)} theta={theta} ~ {shown}"
    return f"nonempty theta={theta} count={len(entries)} seed_hash=37836 {'unordered' if form else 'ordered'} {shown}"


def rows():
    """Pairs of a line and its answer."""
    for table in (TABLES, BASE, SKETCHES, OPERATORS, IMAGES, PLANS):
        for row in table.strip().split("\n"):
            line, wanted = row.split(" | ")
            wanted = re.sub(r"([ut]?)\{(\w+):? ?([^}]*)\}", state, wanted.replace("EXACT", EXACT).replace("MAX", MAX))
            yield line, wanted


def check():
    """Shows the rows that the model answers otherwise."""
    count, wrong = 0, []
    for line, wanted in rows():
        count += 1
        found = answer(line)
        if not agree(wanted, found.replace("/+", "/1")):
            wrong.append(f"{line}\nis answered  {found}\nin place of  {wanted}")
    if wrong:
        sys.exit("\n".join([*wrong, f"expected_answers: the model answers {len(wrong)} of {count} rows otherwise"]))
    print(f"expected_answers: the model answers {count} rows as they are written")
