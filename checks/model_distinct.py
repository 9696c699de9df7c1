#!/usr/bin/env python3
"""What the program `distinct` writes, computed from docs/use/FORMATS.md, docs/verify/SPECIFICATION.md and docs/use/DISTINCT.md alone.

checks/model_distinct.py COMMAND [OPTION..] [FILE..] writes it. checks/model_distinct.py --check FOLDER compares it with the cases of a folder,
such as tests/distinct: what is written, to standard output and to files, and the status; if a case has messages, also
the message, if a file's contents are at fault. It doesn't know the messages of wrong arguments and of the system, nor the
texts of --help and --version. It shares no code with the program.
"""
import bisect
import collections
import fractions
import functools
import io
import json
import math
import os
import re
import struct
import sys

sys.dont_write_bytecode = True
import distinct_cases

MAX_THETA = 2**63 - 1
DEFAULT_SEED = 9001
M64 = 2**64 - 1

LINES = "-C --lg-k --field --separator --csv --blanks --crlf --header --seed --seed-file --files0-from --part --progress "
OPTIONS = {
    "count": LINES + "--by --hex --groups --per-file --sort --min --top --bounds --human --tsv --json",
    "sketch": LINES + "--by --value --skip-invalid --summary --visits --hex --output --output-dir --force",
    "union": "-C --lg-k --seed --seed-file --files0-from --expect --hex --groups --sums --summary --output",
    "meet": "-C --seed --seed-file --files0-from --expect --hex --groups --output",
    "minus": "-C --seed --seed-file --hex --groups --output",
    "show": "-C --seed --seed-file --files0-from --hex --groups --bounds --tsv --json",
    "eval": "-C --lg-k --seed --seed-file --keys --sums --summary --field --separator --csv --blanks --crlf --header --progress --groups --sort --min --top --bounds --human --tsv --json --hex --output --force",
    "visits": LINES + "--sums --hex --bounds --tsv --json",
    "similarity": "-C --seed --seed-file --hex --bounds --tsv --json",
    "matrix": "-C --seed --seed-file --files0-from --hex --bounds --tsv --json",
    "sum": LINES + "--value --skip-invalid --by --sort --min --top --tsv --json",
}
OPTIONS = {command: f"{options} --quiet" + " --error" * (command in ("count", "sketch", "visits", "sum")) for command, options in OPTIONS.items()}
FLAGS = ("--hex", "--groups", "--sums", "--visits", "--progress", "--keys", "--force", "--quiet", "--human", "--csv", "--blanks", "--crlf", "--header", "--per-file", "--skip-invalid")
# Short names of options with a value, which may be attached to them.
SHORT = {"-k": "--lg-k", "-f": "--field", "-d": "--separator", "-o": "--output"}
# What a line end in a field of a record is until the field is chosen.
LINE_END = b"\x1d"
# Options that choose fields: by a number, or by a text of numbers and names.
COLUMNS = ("--field", "--by", "--value")
# How the numbers of a key are combined.
MODES = {"sum": int.__add__, "min": min, "max": max}
FAMILIES = (
    "Alpha sketches,update sketches,theta sketches,unions,intersections,differences,HLL sketches,quantiles sketches,"
    "tuple sketches,frequency sketches,reservoirs,unions of reservoirs,VarOpt sketches,unions of VarOpt sketches,KLL sketches,"
    "CPC sketches,REQ sketches,count-min sketches,EBPPS sketches,t-digests,Bloom filters"
).split(",")
RANGES = {"--lg-k": (4, 26), "--seed": (0, M64), "--min": (1, M64), "--top": (1, M64)} | {it: (1, 2**32 - 1) for it in ("--field", "--by", "--value", "--expect")}


class Fault(Exception):
    """Wrong arguments: status 2."""


class Failure(Exception):
    """What a file has is at fault: status 1 and this message."""


class Uncomputed(Exception):
    """What is not known here: a text of help, or what the system says."""


# The hash, and sketches as None, if empty, or their hashes and their theta. Sketches of sums have the sum of each hash.


def rotl(x, n):
    return (x << n | x >> (64 - n)) & M64


def first_mixing(k):
    return rotl(k * 0x87C37B91114253D5 & M64, 31) * 0x4CF5AD432745937F & M64


def second_mixing(k):
    return rotl(k * 0x4CF5AD432745937F & M64, 33) * 0x87C37B91114253D5 & M64


def spread(x):
    for factor in (0xFF51AFD7ED558CCD, 0xC4CEB9FE1A85EC53):
        x = (x ^ x >> 33) * factor & M64
    return x ^ x >> 33


def murmur128(data, seed):
    """Both halves of MurmurHash3 x64 128."""
    h1 = h2 = seed
    whole = len(data) // 16 * 16
    for place in range(0, whole, 16):
        k1, k2 = struct.unpack_from("<QQ", data, place)
        h1 = (rotl(h1 ^ first_mixing(k1), 27) + h2) * 5 + 0x52DCE729 & M64
        h2 = (rotl(h2 ^ second_mixing(k2), 31) + h1) * 5 + 0x38495AB5 & M64
    k1, k2 = struct.unpack("<QQ", data[whole:].ljust(16, b"\0"))
    h1 ^= first_mixing(k1) ^ len(data)
    h2 ^= second_mixing(k2) ^ len(data)
    h1 = h1 + h2 & M64
    h2 = h2 + h1 & M64
    h1, h2 = spread(h1), spread(h2)
    h1 = h1 + h2 & M64
    return h1, h2 + h1 & M64


def murmur(data, seed):
    """Its first half."""
    return murmur128(data, seed)[0]


def seed_hash(seed):
    return murmur(struct.pack("<Q", seed), 0) & 0xFFFF


def key_of(line, field, separator):
    """A line's key, as `cut -f` has it."""
    if field is None or separator not in line:
        return line
    return dict(enumerate(line.split(separator), 1)).get(field, b"")


def lines_of(text):
    lines = text.split(b"\n")
    return lines if lines[-1] else lines[:-1]


def cut(k, hashes, theta):
    """The hashes below theta; of more than k the k smallest, and theta is then the next one."""
    kept = sorted(h for h in hashes if 0 < h < theta)
    return (set(kept), theta) if len(kept) <= k else (set(kept[:k]), kept[k])


def groups_of(texts, options):
    """The lines of each group as one text, by the group's name, in ascending order."""
    groups = {}
    for line in (line for text in texts for line in lines_of(text)):
        groups.setdefault(key_of(line, options["--by"], options["--separator"]), []).append(line + b"\n")
    return {name: b"".join(groups[name]) for name in sorted(groups)}


def sketch_of(texts, options, seed):
    keys = {key_of(line, options["--field"], options["--separator"]) for text in texts for line in lines_of(text)}
    return cut(2 ** options["--lg-k"], {murmur(key, seed) >> 1 for key in keys}, MAX_THETA) if keys else None


def visits_of(texts, options, seed):
    """The sketch of the lines of texts, and how often each of its hashes comes."""
    sketch = sketch_of(texts, options, seed)
    lines = [line for text in texts for line in lines_of(text)]
    hashes = [murmur(key_of(line, options["--field"], options["--separator"]), seed) >> 1 for line in lines]
    counts = collections.Counter(hashes)
    return sketch, [counts[it] for it in (sketch[0] if sketch else [])]


def number_in(text):
    """The whole number below 2^64 that a text spells in decimal digits, if it spells one."""
    return int(text) if re.fullmatch(rb"[0-9]+", text) and int(text) <= M64 else None


def value_of(line, name, number, options):
    """The value of the line of this number in the text of this name."""
    value = key_of(line, options["--value"], options["--separator"])
    if number_in(value) is None:
        found = f'its value "{quoted(value)}"' + ("" if options["texts"] else f' in field {options["--value"]}')
        raise Failure(f"{escaped(called(name))}: line {number}: {found} is not a whole number up to {M64}: check --value and --separator")
    return int(value)


def totals_of(texts, options):
    """The name and the total of each group of the lines of texts, each with its name, in ascending order."""
    totals = {}
    for name, text in texts:
        for number, line in enumerate(lines_of(text), 1):
            group = key_of(line, options["--by"], options["--separator"])
            totals[group] = min(totals.get(group, 0) + value_of(line, name, number, options), 2**128 - 1)
    return sorted(totals.items())


def sums_of(texts, options, seed):
    """The sketch of the lines of texts, each with its name, with the values of each of its hashes combined by --summary; of 1 without --value."""
    sums, combine = {}, MODES[options.get("--summary", "sum")]
    for name, text in texts:
        for number, line in enumerate(lines_of(text), 1):
            value = value_of(line, name, number, options) if options.get("--value") else 1
            key = murmur(key_of(line, options["--field"], options["--separator"]), seed) >> 1
            sums[key] = combine(sums[key], value) if key in sums else value
            if sums[key] > M64:
                raise Failure(f"{escaped(called(name))}: line {number}: the sum of its key is above {M64}")
    sketch = sketch_of([text for _, text in texts], options, seed)
    return sketch and ({it: sums[it] for it in sketch[0]}, sketch[1])


def unite_sums(k, parts, mode="sum"):
    """The union of sketches of sums by a mode, and the first part with which a sum is above 64 bits; one of the two is None."""
    theta, sums = MAX_THETA, {}
    for place, part in enumerate(parts):
        part_sums, part_theta = part or ({}, MAX_THETA)
        theta = min(theta, part_theta)
        for it, number in part_sums.items():
            sums[it] = MODES[mode](sums[it], number) if it in sums else number
        hashes, theta = cut(k, sums, theta)
        sums = {it: sums[it] for it in hashes}
        if any(it > M64 for it in sums.values()):
            return None, place
    return ((sums, theta) if any(parts) else None), None


def unite(k, parts):
    parts = [part for part in parts if part]
    if not parts:
        return None
    return cut(k, set().union(*(hashes for hashes, _ in parts)), min(theta for _, theta in parts))


def meet(parts):
    met = parts[0]
    for part in parts[1:]:
        if not met or not part:
            return None
        theta = min(met[1], part[1])
        shared = met[0] & part[0]
        if met[0] and part[0] and not shared and theta == MAX_THETA:
            return None
        met = ({h for h in shared if h < theta}, theta)
    return met


def minus(first, second):
    if not first or not second:
        return first
    theta = min(first[1], second[1])
    kept = {h for h in first[0] - second[0] if h < theta}
    return (kept, theta) if kept or theta < MAX_THETA else None


# Images.


def image_of(sketch, own_hash, of_sums=False):
    """The image of an ordered sketch, a theta sketch or one of sums."""
    if not sketch:
        return bytes.fromhex("010309 0100 1e 0000" if of_sums else "010303 0000 1e 0000")
    hashes, theta = sketch
    longs = 3 if theta < MAX_THETA else 1 if len(hashes) == 1 else 2
    head = struct.pack("<BBBHBH", longs, 3, 9 if of_sums else 3, 1 if of_sums else 0, 0x1A, own_hash)
    head += struct.pack("<II", len(hashes), 0) * (longs > 1) + struct.pack("<Q", theta) * (longs > 2)
    if of_sums:
        return head + b"".join(struct.pack("<QQ", it, hashes[it]) for it in sorted(hashes))
    return head + b"".join(struct.pack("<Q", h) for h in sorted(hashes))


def sums_length(image):
    """The length of the image of sums that the bytes begin, or None if they don't begin with its whole preamble."""
    if len(image) < 8 or not 1 <= image[0] <= 3 or image[1] not in (1, 3) or image[2] != 9 or image[3] not in (1, 5):
        return None
    start = 8 if image[5] & 4 else 8 * image[0]
    if len(image) < start:
        return None
    return start + 16 * (0 if image[5] & 4 else 1 if image[0] == 1 else struct.unpack_from("<I", image, 8)[0])


def damaged(what):
    """The message on an image that is damaged, by what is not valid."""
    return f"is damaged ({what}): copy or make it again"


def sums_flaw_of(image, own_hash):
    """Why bytes are not one image of sums that is read: the first reason."""
    length = sums_length(image)
    if len(image) >= 16 and re.fullmatch(rb"[0-9a-fA-F]{16}", image[:16]):
        return "is hexadecimal text: pass --hex"
    if len(image) < 8:
        return "is not an image of sums"
    if image[2] != 9:
        named = f", the family of {FAMILIES[image[2] - 1]}" if 1 <= image[2] <= len(FAMILIES) else ""
        return f"is not an image of sums (the third byte is {image[2]}{named}, not 9)"
    if image[1] not in (1, 3):
        return f"is of version {image[1]}; versions 1 and 3 are read: write it in version 3"
    if image[5] & 1:
        return "is in big-endian order: write it in little-endian order"
    if not 1 <= image[0] <= 3 or image[3] not in (1, 5):
        return damaged("its preamble or sketch type is not valid")
    if length is None or length > len(image):
        return "is cut short: copy or make it again"
    if not image[5] & 4 and struct.unpack_from("<H", image, 6)[0] != own_hash:
        return "was made with another seed: pass that --seed"
    if not image[5] & 4 and image[0] == 3 and not 1 <= struct.unpack_from("<Q", image, 16)[0] <= MAX_THETA:
        return damaged("its theta is not from 1 to 2^63 - 1")
    if length < len(image):
        return "has bytes after its image: a file has one image, or with --hex one per line"
    return damaged("its hashes or sums are not valid")


def sums_of_image(image, own_hash):
    """The sketch of sums that one image is read as."""
    if sums_length(image) != len(image) or image[2] != 9 or image[3] not in (1, 5):
        raise Failure(sums_flaw_of(image, own_hash))
    if image[5] & 4:
        return None
    theta = struct.unpack_from("<Q", image, 16)[0] if image[0] == 3 else MAX_THETA
    entries = list(struct.iter_unpack("<QQ", image[8 * image[0] :]))
    hashes = [it for it, _ in entries]
    has_theta = 1 <= theta <= MAX_THETA and all(0 < it < theta for it in hashes)
    has_order = len(set(hashes)) == len(hashes) and (not image[5] & 16 or hashes == sorted(hashes))
    if not (has_theta and has_order and struct.unpack_from("<H", image, 6)[0] == own_hash):
        raise Failure(sums_flaw_of(image, own_hash))
    return dict(entries), theta


def is_flagged_empty(image):
    """Whether its first eight bytes alone are the image of the empty sketch."""
    return image[1] == 3 and bool(image[5] & 4) or image[1] == 2 and image[0] == 1


def preamble_length(image):
    return 8 if is_flagged_empty(image) else 24 if image[1] == 1 else 8 * image[0]


def image_length(image):
    """The length of the image that the bytes begin, or None if they don't begin with the whole preamble of a theta sketch's."""
    if len(image) < 8 or not (1 <= image[0] <= 3 and 1 <= image[1] <= 3 and image[2] == 3) or len(image) < preamble_length(image):
        return None
    if is_flagged_empty(image):
        return 8
    if image[1] == 3 and image[0] == 1:
        return 16
    return preamble_length(image) + 8 * struct.unpack_from("<I", image, 8)[0]


def is_empty(image):
    """Whether an image is read as the empty sketch: in versions 1 and 2 also one of no hash and the greatest theta."""
    if is_flagged_empty(image):
        return True
    return image[1] < 3 and image_length(image) == preamble_length(image) and theta_of(image) == MAX_THETA


def theta_of(image):
    return struct.unpack_from("<Q", image, 16)[0] if preamble_length(image) == 24 else MAX_THETA


def flaw_of(image, own_hash):
    """Why bytes are not one image that is read: the first reason."""
    length = image_length(image)
    if len(image) >= 16 and re.fullmatch(rb"[0-9a-fA-F]{16}", image[:16]):
        return "is hexadecimal text: pass --hex"
    if len(image) < 8:
        return "is not the image of a theta sketch"
    if image[2] != 3:
        named = f", the family of {FAMILIES[image[2] - 1]}" if 1 <= image[2] <= len(FAMILIES) else ""
        return f"is not the image of a theta sketch (the third byte is {image[2]}{named}, not 3)"
    if not 1 <= image[1] <= 3:
        return f"is of version {image[1]}; versions 1 to 3 are read: write it in version 3, uncompressed"
    if image[1] == 3 and image[5] & 1:
        return "is in big-endian order: write it in little-endian order"
    if not 1 <= image[0] <= 3:
        return damaged("its preamble is not valid")
    if length is None or length > len(image):
        return "is cut short: copy or make it again"
    if image[1] > 1 and not is_empty(image) and struct.unpack_from("<H", image, 6)[0] != own_hash:
        return "was made with another seed: pass that --seed"
    if not is_empty(image) and not 1 <= theta_of(image) <= MAX_THETA:
        return damaged("its theta is not from 1 to 2^63 - 1")
    if length < len(image):
        return "has bytes after its image: a file has one image, or with --hex one per line"
    return damaged("its hashes are not valid")


def asked_hash(image, own_hash):
    """The seed hash under which an image is read if its seed may be any: its own, or this one if it has none, or 0, which no seed has."""
    has_preamble = 8 <= len(image) and image[2] == 3 and image[1] in (2, 3) and 1 <= image[0] <= 3
    if not has_preamble or preamble_length(image) > len(image) or is_empty(image):
        return own_hash
    return struct.unpack_from("<H", image, 6)[0] or own_hash


def sketch_of_image(image, own_hash):
    """The sketch that one image is read as."""
    length = image_length(image)
    if length != len(image) or image[2] != 3:
        raise Failure(flaw_of(image, own_hash))
    if is_empty(image):
        return None
    theta = theta_of(image)
    hashes = [it[0] for it in struct.iter_unpack("<Q", image[preamble_length(image) :])]
    has_theta = 1 <= theta <= MAX_THETA and all(0 < h < theta for h in hashes)
    has_order = len(set(hashes)) == len(hashes) and (image[1] == 3 and not image[5] & 16 or hashes == sorted(hashes))
    has_seed = image[1] == 1 or struct.unpack_from("<H", image, 6)[0] == own_hash
    if not (has_theta and has_order and has_seed):
        raise Failure(flaw_of(image, own_hash))
    return set(hashes), theta


# What is printed.


def ceil_sqrt(number):
    return math.isqrt(number - 1) + 1 if number else 0


def count_bounds(z, retained, theta):
    """The ends of the Wilson score interval (docs/verify/SPECIFICATION.md, "Bounds of a count")."""
    spread_of_z = z * z * (MAX_THETA - theta)
    scaled = retained * MAX_THETA
    reach = ceil_sqrt(spread_of_z) * ceil_sqrt(spread_of_z + 4 * scaled)
    middle = 2 * scaled + spread_of_z
    return max(max(middle - reach, 0) // (2 * theta), retained), -(-(middle + reach) // (2 * theta))


def report_of(sketch, z):
    hashes, theta = sketch or (set(), MAX_THETA)
    lower, upper = count_bounds(z, len(hashes), theta)
    estimate = (2 * len(hashes) * MAX_THETA + theta) // (2 * theta)
    return dict(estimate=estimate, lower=lower, upper=upper, exact=theta == MAX_THETA, retained=len(hashes), theta=theta)


def ranges_of(sketch, counts, z):
    """The ends of each range of counts, and the report of the hashes in it: 1, 2, 3 to 4, and so on up to the greatest."""
    rows, least, greatest = [], 1, 1
    while least <= max(counts, default=0):
        retained = sum(least <= it <= greatest for it in counts)
        row = report_of((set(range(retained)), sketch[1]), z)
        rows.append(({"from": least, "to": greatest}, row))
        least, greatest = greatest + 1, 2 * greatest
    return rows


def printed_ranges(rows, options):
    """The answer of `visits` on ranges and their reports."""
    if options["form"] == "--tsv":
        table = [["from", "to", *report_of(None, 2)]] + [[json.dumps(it) for it in (ends | row).values()] for ends, row in rows]
        return "".join("\t".join(it) + "\n" for it in table)
    if options["form"] == "--json":
        return "".join(json.dumps(ends | row, separators=(",", ":")) + "\n" for ends, row in rows)
    shown = ["estimate", "lower", "upper"] if options["--bounds"] else ["estimate"]
    names = [" to ".join(str(it) for it in sorted(set(ends.values()))) for ends, _ in rows]
    return "".join(f"{name}: {' '.join(str(row[it]) for it in shown)}\n" for name, (_, row) in zip(names, rows))


def scaled(number, theta):
    """A number of what is retained, as that of all: times the greatest theta over theta, to the nearest."""
    return (2 * number * MAX_THETA + theta) // (2 * theta)


def total_bounds(z, sums, theta):
    """z standard deviations of Horvitz and Thompson's estimate around it (docs/verify/SPECIFICATION.md, "Bounds of a total")."""
    held, squares = sum(sums), sum(it * it for it in sums)
    root = ceil_sqrt(squares) if squares < 2**128 - 1 else min(ceil_sqrt(held) * ceil_sqrt(max(sums)), held)
    reach = z * -(-root * ceil_sqrt((MAX_THETA - theta) * MAX_THETA) // theta)
    return max(held * MAX_THETA // theta - reach, held), min(-(-held * MAX_THETA // theta) + reach, 2**128 - 1)


def printed_total(sketch, options, exact_total=None):
    """The answer of `eval --sums` on a sketch of sums, or of `sum`, which has the exact total of its lines."""
    sums, theta = sketch or ({}, MAX_THETA)
    behind = ""
    if exact_total is None:
        total = scaled(sum(sums.values()), theta)
        lower, upper = total_bounds(options["--bounds"] or 2, sums.values(), theta)
        row = dict(total=total, lower=lower, upper=upper, exact=theta == MAX_THETA, retained=len(sums), theta=theta)
        behind = "" if row["exact"] else f" estimated, from {lower} to {upper}"
    else:
        total = exact_total
        row = dict(total=total, keys=scaled(len(sums), theta), exact=theta == MAX_THETA, retained=len(sums), theta=theta)
    if options["form"] == "--tsv":
        return "\t".join(row) + "\n" + "\t".join(json.dumps(it) for it in row.values()) + "\n"
    return json.dumps(row, separators=(",", ":")) + "\n" if options["form"] else f"{total}{behind}\n"


def share_bounds(z, shared, united):
    """The ends of the Wilson score interval of a share, in millionths, rounded outwards: the nearest on either side of it that are not
    inside, where the square of the distance from the share is below that of z standard deviations."""
    million = 10**6

    def is_outside(share):
        return (united * share - shared * million) ** 2 >= z * z * united * share * (million - share)

    below, above = shared * million // united, -(-shared * million // united)
    lower = bisect.bisect_left(range(below + 1), True, key=lambda more: is_outside(below - more))
    upper = bisect.bisect_left(range(million - above + 1), True, key=lambda more: is_outside(above + more))
    return below - lower, above + upper


def similarity_of(first, second, options):
    """The shares of `similarity` on two sketches, and the rest of its values: what both retain below the lesser theta, among what at least
    one retains there."""
    million = 10**6
    theta = min(it[1] if it else MAX_THETA for it in (first, second))
    parts = [{h for h in (it[0] if it else ()) if h < theta} for it in (first, second)]
    shared, united = len(parts[0] & parts[1]), len(parts[0] | parts[1])
    exact = not first or not second or theta == MAX_THETA and united > 0
    if not first or not second:
        share = 0 if first or second else million
        lower = upper = share
    elif not united:
        share, lower, upper = million // 2, 0, million
    else:
        share = (2 * shared * million + united) // (2 * united)
        lower, upper = share_bounds(0 if exact else options["--bounds"] or 2, shared, united)
    shares = ["%d.%06d" % divmod(it, million) for it in (share, lower, upper)]
    return shares, [json.dumps(it) for it in (exact, shared, united, theta)]


SIMILARITY = "similarity lower upper exact shared united theta".split()


def printed_similarity(first, second, options):
    """The answer of `similarity` on two sketches."""
    shares, rest = similarity_of(first, second, options)
    if options["form"] == "--tsv":
        return "\t".join(SIMILARITY) + "\n" + "\t".join(shares + rest) + "\n"
    if options["form"] == "--json":
        return "{" + ",".join(f'"{name}":{it}' for name, it in zip(SIMILARITY, shares + rest)) + "}\n"
    return " ".join(shares if options["--bounds"] else shares[:1]) + "\n"


def printed_matrix(rows, options):
    """The answer of `matrix` on names and sketches: a line for each two, with the counts of the set expressions A & B, A - B and B - A."""
    names, lines = ["first", "second", "both", "first_only", "second_only", *SIMILARITY], []
    for place, (first, a) in enumerate(rows):
        for second, b in rows[place + 1 :]:
            counts = [str(report_of(it, 2)["estimate"]) for it in (meet([a, b]), minus(a, b), minus(b, a))]
            shares, rest = similarity_of(a, b, options)
            if options["form"] == "--json":
                values = [json_string(first), json_string(second), *counts, *shares, *rest]
                lines.append("{" + ",".join(f'"{name}":{it}' for name, it in zip(names, values)) + "}")
                continue
            columns = [shown_name(first), shown_name(second), *counts]
            columns += shares + rest if options["form"] else [" ".join(shares if options["--bounds"] else shares[:1])]
            lines.append("\t".join(columns))
    head = ["\t".join(names)] if options["form"] == "--tsv" else []
    return "".join(line + "\n" for line in head + lines)


def escaped(name):
    """A name whose control characters are escaped."""
    short = {"\t": r"\t", "\r": r"\r", "\n": r"\n"}
    return re.sub(r"[\0-\x1f\x7f-\x9f]", lambda it: short.get(it[0], r"\u{%x}" % ord(it[0])), name)


def quoted(value):
    """A value as messages quote it: its first 64 bytes, whose control characters and bytes above 127 are escaped."""
    return escaped("".join(chr(it) if it < 128 else rf"\x{it:02x}" for it in value[:64])) + ".." * (len(value) > 64)


def shown_name(name):
    """A name as answers have it: backslashes are doubled, control characters are escaped, and all bytes above 127 if it isn't UTF-8."""
    data = name.encode() if isinstance(name, str) else name
    short = {9: r"\t", 10: r"\n", 13: r"\r", 92: r"\\"}

    def spelled(text):
        return "".join(rf"\x{it:02x}" for it in text)

    try:
        text = data.decode()
    except UnicodeDecodeError:
        return "".join(short.get(it) or (chr(it) if 32 <= it < 127 else spelled([it])) for it in data)
    return re.sub(r"[\\\0-\x1f\x7f-\x9f]", lambda it: short.get(ord(it[0])) or spelled(it[0].encode()), text)


def json_string(name):
    name = name if isinstance(name, str) else name.decode(errors="replace")
    name = re.sub(r'["\\]', lambda it: "\\" + it[0], name)
    return '"' + re.sub(r"[\0-\x1f]", lambda it: r"\u%04x" % ord(it[0]), name) + '"'


def printed_groups(rows, options):
    """The answer of `count` on groups, each a name in bytes and a report."""
    if options["form"]:
        return printed(rows, options, "show").encode()
    return b"".join(name + b"\t" + printed([(None, row)], options, "count").encode() for name, row in rows)


def for_people(row):
    """A count as people read it: in groups of digits, and an estimate with its bounds, to a power of ten that is at most a
    hundredth of their distance, which are rounded outwards."""
    if row["exact"]:
        return f"{row['estimate']:,}"
    unit = max(10**power for power in range(36) if power == 0 or 100 * 10**power <= row["upper"] - row["lower"])
    lower, upper = row["lower"] // unit * unit, -(-row["upper"] // unit) * unit
    estimate = (2 * row["estimate"] + unit) // (2 * unit) * unit
    return f"about {estimate:,} ({lower:,} to {upper:,})"


def name_behind(name):
    """The name of a file behind its count, if it has one."""
    return "" if name is None else "\t" + shown_name(name)


def printed(rows, options, command):
    """The answer of `count` or `show` on reports, each with its name or None."""
    if options["form"] == "--tsv":
        names = ["name"] * (command != "count" or bool(options.get("--per-file"))) + list(report_of(None, 2))
        table = [[shown_name(name or "")] * (name is not None) + [json.dumps(it) for it in row.values()] for name, row in rows]
        return "".join("\t".join(it) + "\n" for it in [names, *table])
    if options["form"] == "--json":
        named = [[f'"name":{json_string(name or "")}'] * (name is not None) for name, _ in rows]
        pairs = [[f'"{key}":{json.dumps(it)}' for key, it in row.items()] for _, row in rows]
        return "".join("{" + ",".join(name + pair) + "}\n" for name, pair in zip(named, pairs))
    if command == "count" and options.get("--human"):
        return "".join(for_people(row) + name_behind(name) + "\n" for name, row in rows)
    if command == "count":
        shown = ["estimate", "lower", "upper"] if options["--bounds"] else ["estimate"]
        return "".join(" ".join(str(row[it]) for it in shown) + name_behind(name) + "\n" for name, row in rows)
    line = "{}: {estimate} {kind}, retained {retained}, theta {theta}\n"
    kinds = ["exact" if row["exact"] else "estimated, from {lower} to {upper}".format(**row) for _, row in rows]
    return "".join(line.format(shown_name(name), kind=kind, **row) for (name, row), kind in zip(rows, kinds))


# Arguments.


def number_of(option, value):
    least, greatest = RANGES[option]
    if not re.fullmatch(r"[0-9]+", value) or not least <= int(value) <= greatest:
        raise Fault(f"{option} {value}")
    if option == "--seed" and seed_hash(int(value)) == 0:
        raise Fault("a seed whose hash is 0")
    return int(value)


def size_of(value):
    """The least `lg_k` whose standard error, 1 over the square root of 2^lg_k, is at most so many percent."""
    found = re.fullmatch(r"([0-9]+(?:\.[0-9]{1,4})?)%?", value)
    percent = fractions.Fraction(found[1] if found else 0)
    sizes = [it for it in range(4, 27) if 2**it * percent**2 >= 100**2]
    if not sizes or percent > 100:
        raise Fault(f"--error {value}")
    return sizes[0]


def set_option(command, options, words):
    """Sets the option that the words begin with; takes its words off."""
    word = words.pop(0)
    option, has_value, value = (word[:2], True, word[2:]) if word[:2] in SHORT and word[2:] else word.partition("=")
    option = (SHORT | {"-q": "--quiet"}).get(option, option)
    if option not in OPTIONS[command].split():
        raise Fault(f"no option {option}")
    if option in FLAGS or option in ("--tsv", "--json", "--bounds"):
        if has_value and (option != "--bounds" or value not in "1 2 3".split()):
            raise Fault(f"a value of {option}")
        if option == "--bounds":
            options[option] = int(value or 2)
        else:
            options[option if option in FLAGS else "form"] = option
        return
    if not has_value and not words:
        raise Fault(f"no value of {option}")
    value = value if has_value else words.pop(0)
    if option == "--separator" and len(value.encode()) != 1:
        raise Fault("a separator of another length than 1")
    if option == "--part":
        found = re.fullmatch(r"([0-9]+)/([0-9]+)", value)
        value = tuple(map(int, found.groups())) if found else (0, 0)
        if not 1 <= value[0] <= value[1] < 2**32:
            raise Fault("no part")
    if option == "--summary" and value not in MODES:
        raise Fault("another mode than sum, min and max")
    if option == "--sort" and value not in ("name", "estimate", "total"):
        raise Fault("another order than name, estimate and total")
    if option in ("--seed", "--seed-file"):
        options["seed"] = option, value if option == "--seed-file" else number_of(option, value)
    elif option == "--error":
        options["--lg-k"] = size_of(value)
    elif option in COLUMNS:
        options.pop(f"{option} text", None)
        if re.fullmatch("[0-9]*", value):
            options[option] = number_of(option, value)
        else:
            options |= {option: 1, f"{option} text": value}
    else:
        options[option] = number_of(option, value) if option in RANGES else value


def tokens_of(text):
    """The tokens of an expression: each is a kind and, of a name, the name."""
    tokens, place = [], 0
    while text[place:].strip(" \t\n"):
        it = re.compile(r'[ \t\n]*(?:"([^"]+)"|([()&+|])|([^ \t\n()&+|"]+))').match(text, place)
        if not it:
            raise Fault("a quote")
        kind = "name" if it[1] or it[3] not in (None, "-") else it[2] or "-"
        tokens.append((kind, it[1] or it[3]))
        place = it.end()
    return tokens


def operand(tokens, levels):
    """The steps of the name or of the group that tokens begin with."""
    kind, name = tokens.pop(0) if tokens else ("end", None)
    if kind == "name":
        return [("name", name)]
    if kind != "(" or levels == 64:
        raise Fault("no operand")
    steps = steps_in(tokens, levels + 1, ["+", "|", "-"])
    if not tokens or tokens.pop(0)[0] != ")":
        raise Fault("an open parenthesis")
    return steps


def steps_in(tokens, levels, signs):
    """The steps of operands between these signs; & binds tighter than the others."""
    def part():
        return operand(tokens, levels) if signs == ["&"] else steps_in(tokens, levels, ["&"])

    steps = part()
    while tokens and tokens[0][0] in signs:
        sign = tokens.pop(0)[0]
        steps += part() + [(sign, None)]
    return steps


def steps_of(text):
    """The steps of an expression in postfix order: names, and the signs of operators."""
    tokens = tokens_of(text)
    steps = steps_in(tokens, 0, ["+", "|", "-"])
    if tokens:
        raise Fault("something behind the expression")
    return steps


def names_of(steps):
    """The names of an expression, each once."""
    return list(dict.fromkeys(name for kind, name in steps if kind == "name"))


def two_sums(kind, first, second, k, combine):
    """Two sketches of sums combined. A sum above 64 bits is an error, if the key is below both thetas."""
    (sums, theta), (more, other) = first or ({}, MAX_THETA), second or ({}, MAX_THETA)
    if kind != "-" and any(it in more and combine(sums[it], more[it]) > M64 for it in sums if it < min(theta, other)):
        raise Failure("above 64 bits")
    parts = [part and (set(part[0]), part[1]) for part in (first, second)]
    met = meet(parts) if kind == "&" else minus(*parts) if kind == "-" else unite(k, parts)
    both = {it: combine(sums[it], more[it]) for it in sums if it in more and kind != "-"}
    return met and ({it: both.get(it, sums.get(it, more.get(it))) for it in met[0]}, met[1])


def evaluated(steps, sketches, k, combine=None):
    """The sketch of an expression over the sketches of its names, of sums if they are combined."""
    stack = []
    for kind, name in steps:
        if kind == "name":
            stack.append(sketches[name])
            continue
        second, first = stack.pop(), stack.pop()
        if combine:
            stack.append(two_sums(kind, first, second, k, combine))
            continue
        stack.append(meet([first, second]) if kind == "&" else minus(first, second) if kind == "-" else unite(k, [first, second]))
    return stack.pop()


def read_arguments(words):
    """The command, its options and its files. The folders before the command and that among the options are its `dirs`."""
    words, dirs = list(words), []
    while words and words[0].partition("=")[0] == "-C":
        front = {}
        set_option("count", front, words)
        dirs.append(front["-C"])
    if words and words[0] in ("--help", "-h", "--version", "-V"):
        raise Uncomputed(words[0])
    if not words or words[0] not in OPTIONS:
        raise Fault("no command")
    command = words.pop(0)
    options = {"--lg-k": 16 if command in ("count", "visits") else 26 if command in ("show", "meet", "minus") else 12, "seed": ("--seed", DEFAULT_SEED), "form": None}
    files = []
    while words and words[0] != "--":
        if words[0] in ("--help", "-h"):
            raise Uncomputed(f"{command} --help")
        if words[0].startswith("-") and words[0] != "-":
            set_option(command, options, words)
        else:
            files.append(words.pop(0))
    words = files + words[1:]
    if command == "eval" and len(words) != 1:
        raise Fault("not one expression")
    if command == "eval" and "--field" in options and "--keys" not in options:
        raise Fault("--field without --keys")
    if command == "sum" and "--value" not in options:
        raise Fault("sum without --value")
    if command == "sum" and {"--field", "--by"} <= options.keys():
        raise Fault("sum --by with --field")
    if "--separator" in options and not {"--field", "--by", "--value", "--csv"} & options.keys():
        raise Fault("--separator without --field, --by, --value and --csv")
    for option in ("--csv", "--blanks", "--crlf", "--header"):
        if option in options and ({"--groups", "--sums", "--progress"} & options.keys() or command == "eval" and "--keys" not in options):
            raise Fault(f"{option} with --progress, or images")
    if {"--csv", "--header"} & options.keys() and "--part" in options:
        raise Fault("--csv or --header with --part")
    if "--csv" in options and {"--blanks", "--crlf"} & options.keys():
        raise Fault("--csv with --blanks or --crlf")
    if {"--blanks", "--separator"} <= options.keys():
        raise Fault("--blanks and --separator")
    if "--per-file" in options and {"--by", "--groups", "--progress"} & options.keys():
        raise Fault("--per-file with --by, --groups or --progress")
    if {"--sums", "--keys"} <= options.keys():
        raise Fault("--sums and --keys")
    if {"--value", "--visits"} <= options.keys():
        raise Fault("--value and --visits")
    if command == "sketch" and {"--value", "--visits"} & options.keys() and "--by" in options:
        raise Fault("--value or --visits with --by")
    if "--progress" in options and ({"--sums", "--skip-invalid"} & options.keys() or command == "eval" and "--keys" not in options):
        raise Fault("--progress with images or --skip-invalid")
    if "--skip-invalid" in options and "--value" not in options:
        raise Fault("--skip-invalid without --value")
    if "--summary" in options and ("--value" if command == "sketch" else "--sums") not in options:
        raise Fault("--summary without --value or --sums")
    if command == "visits" and "--hex" in options and "--sums" not in options:
        raise Fault("visits --hex without --sums")
    if "--sums" in options and {"--groups", "--field"} & options.keys():
        raise Fault("--sums with --groups or --field")
    if command == "sketch" and "--by" in options and "--hex" not in options and "--output-dir" not in options:
        raise Fault("--by without --hex and without --output-dir")
    if command == "eval" and "--human" in options and "--groups" not in options:
        raise Fault("eval --human without --groups")
    if {"--groups", "--keys"} <= options.keys():
        raise Fault("--groups and --keys")
    if options.get("--human") and options["form"]:
        raise Fault("--human with --tsv or --json")
    if {"--sort", "--min", "--top"} & options.keys() and not {"--by", "--groups"} & options.keys():
        raise Fault("--sort, --min or --top without --by and --groups")
    if command == "count" and "--hex" in options and "--groups" not in options:
        raise Fault("count --hex without --groups")
    if command == "count" and "--groups" in options and {"--field", "--by", "--part", "--progress"} & options.keys():
        raise Fault("count --groups with --field, --by, --part or --progress")
    if {"--part", "--sums"} <= options.keys():
        raise Fault("--part and --sums")
    if "--groups" in options and ("--hex" not in options or "--expect" in options):
        raise Fault("--groups without --hex or with --expect")
    if "--output-dir" in options and ("--by" not in options or "--output" in options):
        raise Fault("--output-dir without --by or with --output")
    if "--files0-from" in options and words:
        raise Fault("a list and files")
    if command in ("count", "sketch", "visits", "sum") and not words and not {"--files0-from", "--sums", "--groups"} & options.keys():
        words = ["-"]
    read = set(names_of(steps_of(words[0]))) if command == "eval" else words
    if [options["seed"][1], options.get("--files0-from"), *read].count("-") > 1:
        raise Fault("standard input twice")
    options["texts"] = any(f"{it} text" in options for it in COLUMNS)
    for option in ("--field", "--by", "--value", "--blanks", "--crlf", "--header", "--sort", "--min", "--top", "--bounds", "--hex", "--groups", "--sums", "--keys", "--output", "--output-dir", "--expect", "--part", "--csv"):
        options.setdefault(option)
    if command == "sum" and options["--by"]:
        # Keys are not used: the group is read in their place.
        options |= {it.replace("--by", "--field"): options[it] for it in ("--by", "--by text") if it in options}
    options["between fields"] = options.get("--separator", ",").encode()
    options["--separator"] = b"\x1f" if options["--csv"] else options.get("--separator", "\t").encode()
    options["chosen"] = [options.get(f"{it} text", options[it]) for it in COLUMNS]
    options["cut"] = options["--separator"]
    if options["texts"]:
        options["--separator"] = b"\x1e"
        options |= {it: options[it] and place for place, it in enumerate(COLUMNS, 1)} | {"--field": 1}
    options["dirs"] = dirs + ([options["-C"]] if "-C" in options else [])
    return command, options, words


# The commands, over the files of a table from names to bytes.


def text_of(files, name):
    if name not in files:
        raise Uncomputed(f"the file {name}")
    return files[name]


def range_of(size, index, parts):
    """Where the range of a part of a file of so many bytes begins and ends."""
    return size * (index - 1) // parts, size * index // parts


def shows_start(size, index, parts):
    """Whether a part is read from the first byte of its file on: one before its range is read too."""
    begin, end = range_of(size, index, parts)
    return begin <= 1 and begin < end


def part_of(text, index, parts):
    """The lines of a text whose first byte is in the range of a part."""
    begin, end = range_of(len(text), index, parts)
    lines, place = [], 0
    for line in io.BytesIO(text):
        lines += [line] * (begin <= place < end)
        place += len(line)
    return b"".join(lines)


class WithoutMarks:
    """Files without the byte order mark that some begin with."""

    def __init__(self, files):
        self.files = files

    def __contains__(self, name):
        return name in self.files

    def __getitem__(self, name):
        return self.files[name].removeprefix(b"\xef\xbb\xbf")

    def __setitem__(self, name, text):
        self.files[name] = text


class InRecords:
    """Files in which each record of CSV is a line: of the fields that options use, or of all, with the byte 31 between two."""

    def __init__(self, files, options):
        self.files, self.options = files, options

    def __contains__(self, name):
        return name in self.files

    def __getitem__(self, name):
        if self.options["between fields"] in (b'"', b"\r", b"\n"):
            raise Uncomputed("records that such a byte separates")
        separator = re.escape(self.options["between fields"])
        field = rb'"(?:[^"]|"")*"|[^"\r\n' + separator + rb"]*"
        record = rb"(?:%s)(?:%s(?:%s))*" % (field, separator, field)
        used = {self.options[it] for it in COLUMNS} if self.options["--field"] and not self.options["texts"] else None
        text, lines = self.files[name], []
        if not re.fullmatch(rb"(?:%s\r?\n)*(?:%s)?" % (record, record), text):
            raise Uncomputed("what is wrong with records")
        for whole, end in re.findall(rb"(%s)(\r?\n|\Z)" % record, text):
            if whole or end:
                fields = re.findall(rb"(?:\A|%s)(%s)" % (separator, field), whole)
                values = [it[1:-1].replace(b'""', b'"') if it.startswith(b'"') else it for it in fields]
                lines.append(b"\x1f".join(it if used is None or number in used else b"" for number, it in enumerate(values, 1)))
                if b"\n" in lines[-1] and not self.options["texts"]:
                    raise Uncomputed("a line end in a field")
                lines[-1] = lines[-1].replace(b"\n", LINE_END)
        lines = lines[1:] if self.options["--header"] and not self.options["texts"] else lines
        return b"".join(line + b"\n" for line in lines)

    def __setitem__(self, name, text):
        self.files[name] = text


class OfFields:
    """Files of whose lines chosen fields are passed on, or whose lines are read without a CR, with blanks as one tab, or without the first."""

    def __init__(self, files, options):
        self.files, self.options = files, options

    def __contains__(self, name):
        return name in self.files

    def __getitem__(self, name):
        options = self.options
        lines = lines_of(self.files[name])
        if options["--crlf"]:
            lines = [line.removesuffix(b"\r") for line in lines]
        if options["--blanks"]:
            lines = [b"\t".join(re.findall(rb"[^ \t]+", line)) for line in lines]
        header = None
        names = [it for text in options["chosen"] if isinstance(text, str) for it in re.sub(":[0-9]+$", "", text).split(",") if it and not it.isdigit()]
        if options["--header"] and (options["texts"] or not options["--csv"]) or names:
            if options["--part"]:
                raise Uncomputed("names with --part")
            header, lines = (lines or [b""])[0].split(options["cut"]), lines[1:]
        if options["texts"]:
            if re.search("[,:]", str(options["chosen"][2] or "")):
                raise Uncomputed("a number of several fields, or of a front")
            lines = [b"\x1e".join(self.part(it, line, header, place) for place, it in enumerate(options["chosen"])) for line in lines]
        return b"".join(line + b"\n" for line in lines)

    def part(self, chosen, line, header, place):
        if chosen is None:
            if place == 0 and (b"\x1e" in line or LINE_END in line):
                raise Uncomputed("a byte 30")
            return b"" if place else line
        text, _, most = str(chosen).rpartition(":") if re.search(":[0-9]+$", str(chosen)) else (str(chosen), "", "")
        fields, values = line.split(self.options["cut"]), []
        for item in text.split(","):
            if item.isdigit() and int(item):
                number = int(item) - 1
            elif header and item and item.encode() in header:
                number = header.index(item.encode())
            else:
                raise Uncomputed("a name that the first line lacks")
            values.append(fields[number] if number < len(fields) else b"")
            if LINE_END in values[-1]:
                raise Uncomputed("a line end in a field")
        if any(byte in value for value in values for byte in b"\x1e\x1f"):
            raise Uncomputed("a byte 30 or 31")
        joined = b"\x1f".join(values)
        return joined[: int(most)] if most else joined

    def __setitem__(self, name, text):
        self.files[name] = text


class WithNumbers:
    """Files whose lines without a number are left out, and counted in messages."""

    def __init__(self, files, options, messages):
        self.files, self.options, self.messages = files, options, messages

    def __contains__(self, name):
        return name in self.files

    def __getitem__(self, name):
        lines = lines_of(self.files[name])
        kept = [it for it in lines if number_in(key_of(it, self.options["--value"], self.options["--separator"])) is not None]
        skipped = len(lines) - len(kept)
        if skipped:
            said = "1 line without a number was skipped" if skipped == 1 else f"{skipped} lines without a number were skipped"
            self.messages.append(f"{escaped(called(name))}: {said}")
        return b"".join(line + b"\n" for line in kept)

    def __setitem__(self, name, text):
        self.files[name] = text


class InPart:
    """Files of which only one part is read."""

    def __init__(self, files, part):
        self.files, self.part = files, part

    def __contains__(self, name):
        return name in self.files

    def __getitem__(self, name):
        if name == "-":
            raise Failure("standard input: is not a regular file, as --part needs: copy it to one, or read it whole")
        return part_of(self.files[name], *self.part)

    def __setitem__(self, name, text):
        self.files[name] = text


def called(name):
    return "standard input" if name == "-" else name


def images_in(files, names, hex_lines):
    """The name in messages, the name in answers, and the bytes of each image, or why it has none, in turn."""
    for name in names:
        text = text_of(files, name)
        shown = escaped(called(name))
        if not hex_lines:
            yield f"{shown}: ", called(name), text
            continue
        if not text:
            yield f"{shown}: ", called(name), Failure("is empty: recreate it, or omit it")
        for number, line in enumerate(lines_of(text), 1):
            digits = line.strip(b" \t\r\f")
            is_hex = re.fullmatch(rb"([0-9a-fA-F]{2})*", digits)
            yield f"{shown}: line {number} ", called(name), bytes.fromhex(digits.decode()) if is_hex else Failure("is not hexadecimal")


def advice(command, image, of_sums):
    """What a message adds for a file that may be one of lines: short, or its third byte is no family, or a tab, an LF, a CR or of gzip."""
    own = 9 if of_sums else 3
    if len(image) >= 8 and (image[2] == own or image[2] not in (8, 9, 10, 13) and 1 <= image[2] <= len(FAMILIES)):
        return ""
    if len(image) >= 8 and image[2] == 9:
        read = "; union --sums, eval --sums and visits --sums read images of sums, count and sketch lines"
        return "; pass --sums for images of sums, --keys for lines" if command == "eval" else read
    if of_sums:
        return "; visits without --sums reads lines" if command == "visits" else "; sketch --value reads lines"
    return "; pass --keys if the expression's files have lines" if command == "eval" else "; count or sketch reads lines"


def sketches_in(command, files, names, hex_lines, own_hash, of_sums=False, places=None, passed=None):
    """The name and the sketch of each image. Where it is goes to places. If there is a list of those that are passed over, failures go to
    it, and images of other seeds are read, too, with a warning."""
    for place, name, image in images_in(files, names, hex_lines):
        try:
            if places is not None:
                places.append(place)
            if isinstance(image, Failure):
                raise image
            asked = own_hash if passed is None else asked_hash(image, own_hash)
            sketch = (sums_of_image if of_sums else sketch_of_image)(image, asked)
            if asked != own_hash:
                passed.append(f"warning: {place.removesuffix(': ').strip()} was made with another seed: pass that --seed to combine it")
        except Failure as flaw:
            added = "" if hex_lines or "hexadecimal" in str(flaw) else advice(command, image, of_sums)
            failure = Failure(f"{place}{flaw}{added}")
            if passed is None:
                raise failure from None
            passed.append(failure)
            continue
        yield name, sketch


def seed_of(files, options):
    option, value = options["seed"]
    if option == "--seed":
        return value
    try:
        return number_of("--seed", text_of(files, value).decode().strip(" \t\n\f\r"))
    except (Fault, UnicodeDecodeError):
        flaw = "does not contain a valid seed (a number below 2^64 whose seed hash is not 0)"
        raise Failure(f"{escaped(called(value))}: {flaw}") from None


MAGIC = {b"\x1f\x8b": ("gzip", "zcat"), b"\x28\xb5\x2f\xfd": ("zstd", "zstdcat"), b"\xfd7zXZ\0": ("xz", "xzcat"), b"BZh": ("bzip2", "bzcat")}


def look_at(command, names, files, options, messages):
    """Warns of each file that is to be read as lines and has none."""
    for name in names:
        text = text_of(files, name)
        start = f"warning: {escaped(called(name))} is"
        read = "and its bytes are read as lines:"
        for magic, (kind, tool) in MAGIC.items():
            if text.startswith(magic):
                call = tool if name == "-" else f"{tool} {escaped(name)}"
                messages.append(f"{start} compressed by {kind}, {read} {call} | distinct {command}")
        if len(text) > 2 and 1 <= text[0] <= 4 and 1 <= text[1] <= 3 and text[2] in (3, 9):
            call = f"distinct show {escaped(name)}" if text[2] == 3 else f"distinct eval --sums '{escaped(name)}'"
            messages.append(f"{start} {'the image of a sketch' if text[2] == 3 else 'an image of sums'}, {read} {call}")


def coarser(named, lg_k):
    """The warning that an image retains more hashes than a union keeps, if one does: of names and sketches."""
    most, name = max((len(part[0]) if part else 0, -place, name) for place, (name, part) in enumerate(named))[::2]
    less = "the union is less exact than its images; pass a greater --lg-k"
    warning = f"warning: {name} retains {most} hashes, and --lg-k {lg_k} keeps {2**lg_k}: {less}"
    return [warning] * (most > 2**lg_k)


def combined(command, sketches, options, messages):
    """What `union`, `meet` or `minus` makes of images."""
    if command == "minus" and len(sketches) != 2:
        raise Fault("not two images")
    if options["--expect"] not in (None, len(sketches)):
        raise Failure(f"{len(sketches)} images found, {options['--expect']} expected: check the files or --expect")
    parts = [part for _, part in sketches]
    if command == "union":
        lg_k = options["--lg-k"]
        messages += coarser(sketches, lg_k)
        if not options["--sums"]:
            return unite(2**lg_k, parts)
        return unite_sums(2**lg_k, parts, options.get("--summary", "sum"))[0]
    sketch = meet(parts) if command == "meet" else minus(*parts)
    report = report_of(sketch, 2)
    if not report["exact"]:
        messages.append("about {estimate} lines, from {lower} to {upper}".format(**report))
    return sketch


def group_line(name, image):
    return name + b"\t" + image.hex().encode() + b"\n"


def file_of(folder, name):
    """The path of the file of a group."""
    plain = b"abcdefghijklmnopqrstuvwxyzABCDEFGHIJKLMNOPQRSTUVWXYZ0123456789-._"
    return f"{folder}/" + ("".join(chr(it) if it in plain else f"%{it:02x}" for it in name) or "%") + ".theta"


def chosen_groups(rows, options):
    """The names and the sketches of the groups that are printed, in their order, with their reports."""
    rows = [(name, it, report_of(it, options["--bounds"] or 2)) for name, it in rows]
    if options["--sort"] in ("estimate", "total"):
        rows.sort(key=lambda row: -row[2]["estimate"])
    return [row for row in rows if row[2]["estimate"] >= (options["--min"] or 0)][: options["--top"]]


def printed_counts(rows, options):
    """What `count` prints of the names and the sketches of groups."""
    return printed_groups([(name, report) for name, _, report in chosen_groups(rows, options)], options)


def printed_totals(totals, options):
    """What `sum --by` prints of the totals of groups, by their names in ascending order."""
    rows = [row for row in totals if row[1] >= (options["--min"] or 0)]
    if options["--sort"] in ("estimate", "total"):
        rows.sort(key=lambda row: -row[1])
    rows = rows[: options["--top"]]
    if options["form"] == "--json":
        return "".join(f'{{"name":{json_string(name)},"total":{total}}}\n' for name, total in rows).encode()
    if options["form"]:
        return ("name\ttotal\n" + "".join(f"{shown_name(name)}\t{total}\n" for name, total in rows)).encode()
    return b"".join(b"%b\t%d\n" % row for row in rows)


def united_groups(files, names, options, own_hash, messages):
    """The name and the union of the images of each group, in ascending order."""
    groups, read, lg_k = {}, [], options["--lg-k"]
    for name in names:
        for number, line in enumerate(lines_of(text_of(files, name)), 1):
            place = f"{escaped(called(name))}: line {number}"
            group, tab, digits = line.rpartition(b"\t")
            if not tab:
                raise Failure(f"{place} has no tab between the name of a group and its image")
            if not re.fullmatch(rb"([0-9a-fA-F]{2})*", digits):
                raise Failure(f"{place} is not hexadecimal")
            try:
                sketch = sketch_of_image(bytes.fromhex(digits.decode()), own_hash)
            except Failure as flaw:
                raise Failure(f"{place} {flaw}") from None
            groups.setdefault(group, []).append(sketch)
            read.append((called(name), sketch))
    messages += coarser(read, lg_k) if read else []
    return [(name, unite(2**lg_k, groups[name])) for name in sorted(groups)]


def joined_groups(command, files):
    """The name and the intersection or the difference of each group of the first file, the others of which are looked up."""
    first, *others = files
    if command == "meet":
        return [(name, meet([it, *(file[name] for file in others)])) for name, it in first.items() if all(name in file for file in others)]
    return [(name, minus(it, others[0].get(name))) for name, it in first.items()]


def summed(files, names, options, seed, messages):
    """The texts of files, each with its name, and the sketch of their sums, or the totals of their groups. A file that fails isn't read
    to its end, nor any behind it."""
    texts = []
    add = (lambda: totals_of(texts, options)) if options["--by"] else (lambda: sums_of(texts, options, seed))
    try:
        for name in names:
            before = len(messages)
            texts.append((name, text_of(files, name)))
            add()
        return texts, add()
    except Failure:
        del messages[before:]
        raise
def evaluated_groups(text, files, options, own_hash):
    """The name and the result of an expression for each group that any of its files has, in ascending order."""
    steps, unions = steps_of(text), options | {"--lg-k": 26}
    tables = {name: dict(united_groups(files, [name], unions, own_hash, [])) for name in names_of(steps)}
    groups = sorted(set().union(*tables.values()))
    return [(group, evaluated(steps, {name: it.get(group) for name, it in tables.items()}, 2 ** options["--lg-k"], None)) for group in groups]


def written(answer, files, options):
    """The answer, or nothing if it is written to the file that `--output` names."""
    if options["--output"] is None:
        return answer
    files[options["--output"]] = answer
    return b""


def run(words, files, messages):
    """What the program writes to standard output. It changes the files that `--output` and `--output-dir` name."""
    command, options, names = read_arguments(words)
    for dir in options["dirs"]:
        files = InFolder(files, dir)
    hex_lines = options["--hex"]
    if (command in ("minus", "similarity") and not hex_lines or command == "minus" and options["--groups"]) and len(names) != 2:
        raise Fault("not two files")
    if command == "matrix" and not hex_lines and "--files0-from" not in options and len(names) < 2:
        raise Fault("fewer than two files")
    reads_images = command not in ("count", "sketch", "eval", "visits", "sum") or options["--groups"] or command == "visits" and options["--sums"]
    if reads_images and not names and "--files0-from" not in options:
        raise Fault("no image")
    seed = seed_of(files, options)
    if "--files0-from" in options:
        listed = text_of(files, options["--files0-from"])
        if b"\n" in listed and b"\0" not in listed:
            raise Failure(f"{escaped(called(options['--files0-from']))}: has no NUL byte; each name ends in one (find -print0)")
        listed = listed.removesuffix(b"\0").split(b"\0") if listed else []
        for number, name in enumerate(listed, 1):
            if not name or name.decode(errors="ignore").encode() != name:
                raise Failure(f"{escaped(called(options['--files0-from']))}: name {number} is empty or not UTF-8 text")
        names = [name.decode() for name in listed]
    read = names_of(steps_of(names[0])) if command == "eval" else names
    has_lines = options["--keys"] or command in ("count", "sketch", "visits", "sum") and not options["--sums"] and not options["--groups"]
    if has_lines and options["--output"] not in (None, "-") and options["--output"] in read and "--force" not in options:
        raise Fault("the output is an input")
    part = options["--part"]
    if has_lines:
        look_at(command, [it for it in read if not part or it != "-" and shows_start(len(text_of(files, it)), *part)], files, options, messages)
    of_fields = has_lines and (options["texts"] or options["--blanks"] or options["--crlf"] or options["--header"] and not options["--csv"])
    if options["--csv"] or of_fields:
        files = WithoutMarks(files)
    if part:
        files = InPart(files, part)
    if options["--csv"]:
        files = InRecords(files, options)
    if of_fields:
        files = OfFields(files, options)
    if "--skip-invalid" in options:
        files = WithNumbers(files, options, messages)
    if command == "visits" and not options["--sums"]:
        sketch, counts = visits_of([text_of(files, name) for name in names], options, seed)
        return printed_ranges(ranges_of(sketch, counts, options["--bounds"] or 2), options).encode()
    if command == "sum":
        texts, sketch = summed(files, names, options, seed, messages)
        if options["--by"]:
            return printed_totals(sketch, options)
        values = (key_of(line, options["--value"], options["--separator"]) for _, text in texts for line in lines_of(text))
        return printed_total(sketch, options, sum(int(it) for it in values)).encode()
    if command == "sketch" and (options.get("--value") or options.get("--visits")):
        image = image_of(summed(files, names, options, seed, messages)[1], seed_hash(seed), True)
        return written(image.hex().encode() + b"\n" if hex_lines else image, files, options)
    if command == "eval" and options["--groups"]:
        groups = evaluated_groups(names[0], files, options, seed_hash(seed))
        if options["--output"] is None:
            return printed_counts(groups, options)
        lines = [group_line(name, image_of(it, seed_hash(seed))) for name, it, _ in chosen_groups(groups, options)]
        return written(b"".join(lines), files, options)
    if options["--groups"]:
        if command in ("meet", "minus"):
            groups = joined_groups(command, [dict(united_groups(files, [name], options, seed_hash(seed), messages)) for name in names])
        else:
            groups = united_groups(files, names, options, seed_hash(seed), messages)
        if command == "count":
            return printed_counts(groups, options)
        if command == "show":
            plain = [(name if options["form"] else name.decode(errors="replace"), it) for name, it in groups]
            return printed([(name, report_of(it, options["--bounds"] or 2)) for name, it in plain], options, command).encode()
        return written(b"".join(group_line(name, image_of(it, seed_hash(seed))) for name, it in groups), files, options)
    z = options["--bounds"] or 2
    if options["--by"]:
        groups = groups_of([text_of(files, name) for name in names], options)
        rows = [(name, sketch_of([text], options, seed)) for name, text in groups.items()]
        if command == "count":
            return printed_counts(rows, options)
        images = [(name, image_of(it, seed_hash(seed))) for name, it in rows]
        if options["--output-dir"]:
            for name, _ in images:
                path = file_of(options["--output-dir"], name)
                size = len(path.rpartition("/")[2])
                if size > 246:
                    shown = path[:200] + ".." * (len(path) > 200)
                    remedy = "write lines by --hex, without --output-dir"
                    raise Failure(f"{shown}: the file's name has {size} bytes, and at most 246 are allowed: {remedy}")
            for name, image in images:
                files[file_of(options["--output-dir"], name)] = image.hex().encode() + b"\n" if hex_lines else image
            return b""
        return written(b"".join(group_line(name, image) for name, image in images), files, options)
    if command == "count" and "--per-file" in options:
        rows = [(called(name), sketch_of([text_of(files, name)], options, seed)) for name in names]
    elif command in ("count", "sketch"):
        sketch = sketch_of([text_of(files, name) for name in names], options, seed)
        rows = [(None, sketch)]
    elif command == "eval":
        steps = steps_of(names[0])
        of_sums = bool(options["--sums"])
        if options["--keys"]:
            sketches = {it: sketch_of([text_of(files, it)], options, seed) for it in names_of(steps)}
        else:
            found = [it for _, it in sketches_in(command, files, names_of(steps), hex_lines, seed_hash(seed), of_sums)]
            if len(found) != len(names_of(steps)):
                raise Failure(f"{len(found)} images found, {len(names_of(steps))} expected: with eval --hex each file has one line")
            sketches = dict(zip(names_of(steps), found))
        try:
            sketch = evaluated(steps, sketches, 2 ** options["--lg-k"], MODES[options.get("--summary", "sum")] if of_sums else None)
        except Failure:
            raise Failure(f"eval: '{escaped(names[0])}': the sum of a key is above {M64}") from None
        lowest = min(part[1] if part else MAX_THETA for part in sketches.values())
        if not options["--keys"] and (sketch[1] if sketch else MAX_THETA) < lowest:
            messages += coarser([(called(name), part) for name, part in sketches.items()], options["--lg-k"])
        if of_sums and options["--output"] is None:
            return printed_total(sketch, options).encode()
        rows = [(names[0], sketch)]
    elif command == "show":
        if not names:
            raise Fault("no image")
        rows = list(sketches_in(command, files, names, hex_lines, seed_hash(seed), passed=messages))
    else:
        of_sums, places, rows = bool(options["--sums"]), [], []
        for row in sketches_in(command, files, names, hex_lines, seed_hash(seed), of_sums, places):
            rows.append(row)
            if of_sums and unite_sums(2 ** options["--lg-k"], [part for _, part in rows], options.get("--summary", "sum"))[1] is not None:
                place = places[-1].rstrip(": ") if hex_lines else places[-1][:-2]
                raise Failure(f"{place}: the sum of a key is above {M64} with this image")
        if not rows:
            raise Fault("no image")
    if command == "matrix":
        if len(rows) < 2:
            raise Fault("fewer than two images")
        if hex_lines:
            rows = [(f"{name}:{place.split()[-1]}", it) for (name, it), place in zip(rows, places)]
        return printed_matrix(rows, options).encode()
    if command == "similarity":
        if len(rows) != 2:
            raise Fault("not two images")
        return printed_similarity(rows[0][1], rows[1][1], options).encode()
    if command in ("count", "show") or command == "eval" and options["--output"] is None:
        return printed([(name, report_of(it, z)) for name, it in rows], options, command).encode()
    if command == "visits":
        sketch = combined("union", rows, options, messages)
        counts = list(sketch[0].values()) if sketch else []
        return printed_ranges(ranges_of(sketch, counts, options["--bounds"] or 2), options).encode()
    if command not in ("sketch", "eval"):
        sketch = combined(command, rows, options, messages)
    image = image_of(sketch, seed_hash(seed), bool(options["--sums"]))
    return written(image.hex().encode() + b"\n" if hex_lines else image, files, options)


# The cases of a folder.


def bytes_of(path):
    if not os.path.exists(path):
        return b""
    with open(path, "rb") as file:
        return file.read()


def case_files(files):
    """The files of the folder of a case, by the names that arguments have."""
    return {"@" + name: text for name, text in (files or {}).items()}


# What messages of the system have.
SYSTEM = b": No such file or directory", b": Not a directory", b": is a directory"


def status_of(messages):
    """The status if an answer is written: 1 if a message is the failure of a file that was passed over."""
    return int(any(isinstance(it, Failure) for it in messages))


def in_turn(messages, arguments):
    """Messages as they are printed: remarks, unless the program is to be quiet, and then failures."""
    remarks = [] if {"-q", "--quiet"} & set(arguments) else [it for it in messages if not isinstance(it, Failure)]
    return remarks + [it for it in messages if isinstance(it, Failure)]


def wrong_in(case, data):
    """What differs in a case, if anything. These are the files of the folder in which it runs."""
    files = data | case_files(case.before) | {"-": case.input}
    files |= {it.decode(): files["keys.theta"] for it in files["odd.list"].split(b"\0") if it}
    status, answer, messages = 0, b"", []
    if any(text in (case.messages or b"") for text in SYSTEM):
        raise Uncomputed("an error of the system")
    try:
        answer = run(case.arguments, files, messages)
        status = status_of(messages)
    except Fault:
        status, messages = 2, None
    except Failure as failure:
        status, messages = 1, [*messages, failure]
    if any("/" in it for it in files if not it.startswith("@")):
        raise Uncomputed("a file in another folder")
    if status != case.status:
        return "status"
    if answer != case.output:
        return "answer"
    said = "".join(f"distinct: {it}\n" for it in in_turn(messages or [], case.arguments))
    if messages is not None and case.messages is not None and said.encode() != case.messages:
        return "message"
    after = {name: text for name, text in files.items() if name.startswith("@")}
    if case.before is not None and after != case_files(case.after):
        return "files"
    return None


def wrong_help(name, case):
    """What is wrong with the text of help on a command: it names its options and no others, in lines of at most 100 bytes."""
    command = name.rpartition("help_on_")[2]
    text = case.output.decode()
    named = set(re.findall(r"(?<!\S)-C|--[a-z0-9-]+", text)) - {"--help"}
    options = set(OPTIONS.get(command, "").split())
    long = [line for line in text.split("\n") if len(line.encode()) > 100]
    differ = sorted(named ^ options) if command in OPTIONS else []
    return [f"{name}: {it}" for it in long + differ]


def check(folder):
    wrong, uncomputed, number = [], [], 0
    data = {it: bytes_of(os.path.join(folder, "data", it)) for it in os.listdir(os.path.join(folder, "data"))}
    for name, case in distinct_cases.read(folder).items():
        try:
            differs = wrong_in(case, data)
            number += 1
            wrong += [f"{name}: another {differs}"] * (differs is not None)
        except Uncomputed as reason:
            wrong += wrong_help(name, case)
            is_text = str(reason).endswith(("--help", "-h", "--version", "-V"))
            kind = wrong if not is_text and not case.status else uncomputed
            kind.append(f"{name}: not computed: {reason}")
    if wrong:
        sys.exit("\n".join(wrong))
    print("\n".join(uncomputed + [f"model_distinct: {number} cases are as computed, {len(uncomputed)} are not computed"]))
    sys.exit()


class InFolder:
    """Files by their names in a folder of other files. The @ before a name is a folder too."""

    def __init__(self, files, dir):
        self.files, self.dir = files, dir

    def path(self, name):
        if name == "-" or name.startswith(("/", "@")):
            return name
        return os.path.normpath(os.path.join(self.dir.replace("@", "@/", 1), name)).replace("@/", "@", 1)

    def __contains__(self, name):
        return self.path(name) in self.files

    def __getitem__(self, name):
        return self.files[self.path(name)]

    def __setitem__(self, name, text):
        self.files[self.path(name)] = text


class OpenFiles(dict):
    """The files of this folder, by their names, and standard input, which is read once."""

    @functools.cached_property
    def standard(self):
        return sys.stdin.buffer.read()

    def __contains__(self, name):
        return name == "-" or os.path.isfile(name)

    def __getitem__(self, name):
        return self.standard if name == "-" else bytes_of(name)

    def __setitem__(self, name, text):
        with open(name, "wb") as file:
            file.write(text)


def main():
    if sys.argv[1:2] == ["--check"]:
        check(sys.argv[2].rstrip("/"))
    messages = []
    try:
        sys.stdout.buffer.write(run(sys.argv[1:], OpenFiles(), messages))
    except Fault as fault:
        sys.exit(print(f"model_distinct: wrong arguments: {fault}", file=sys.stderr) or 2)
    except (Failure, Uncomputed) as failure:
        sys.exit(print(f"distinct: {failure}", file=sys.stderr) or 1)
    for it in in_turn(messages, sys.argv[1:]):
        print(f"distinct: {it}", file=sys.stderr)
    sys.exit(status_of(messages))


if __name__ == "__main__":
    main()
