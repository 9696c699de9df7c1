#!/usr/bin/env python3
"""This project beside plain Rust, in one run: each case of bench/plans/sketch_bench.rt.txt, and plan texts of a million lines.

    bench/plans/run.py [--rounds N] [CASE..]    CASE is a case of bench/plans/sketch_bench.rt.txt, or a text, as text_leaf

It copies the crates with what their checks kept, proves and builds sketch_bench and sketchtool in the copy, and runs each in
turns with the plain Rust program on one core. A row has the best of all rounds, in nanoseconds of processor time an item or
a line, and whether both gave the same answer. BENCH_PLACE=DIR keeps the copy for a later run. It needs rt and rustc; run it
by hand, on a quiet machine. Nothing of it is a crate of the repository.
"""
import argparse
import os
import resource
import shutil
import subprocess
import sys
import tempfile

HERE = os.path.dirname(os.path.abspath(__file__))
TOP = os.path.dirname(os.path.dirname(HERE))
CASES = [
    ('murmur8', 10000000), ('bytes20', 10000000), ('bytes64', 10000000), ('update12', 10000000), ('hash12', 10000000),
    ('hash12', 4096), ('hash20', 10000000), ('repeat12', 10000000), ('hash12_many', 10000000), ('hash20_many', 10000000),
    ('repeat12_many', 10000000), ('screened', 10000000), ('update_screened', 10000000), ('small', 1000000),
    ('union', 1000), ('union_mut', 1000), ('union_same', 1000), ('union_half', 1000),
    ('union_all', 1000), ('union_all', 100), ('union_all', 10), ('union_all_same', 1000), ('union_all_half', 1000),
    ('meet', 65536), ('meet_mut', 65536), ('minus', 65536), ('minus_mut', 65536), ('meet_chosen', 25000),
    ('meet_chosen', 100000), ('minus_chosen', 25000), ('minus_chosen', 100000), ('union_chosen', 25000),
    ('union_chosen', 100000), ('compact', 65536), ('serialize', 65536),
    ('deserialize', 65536), ('round', 65536), ('tuple12', 10000000), ('tuple_sum12', 10000000), ('tuple_union', 1000),
    ('tuple_union_all', 1000), ('tuple_serialize', 65536), ('tuple_deserialize', 65536),
]
TEXTS = ['leaf', 'union', 'via', 'minus', 'meet', 'tuple_leaf', 'tuple_union', 'tuple_via', 'tuple_minus', 'tuple_meet']
LINES = 1000000


def crate_lines():
    with open(os.path.join(TOP, 'crates.txt')) as lines:
        return dict(line.strip().split(':', 1) for line in lines if line.strip() and not line.startswith('#'))


def libraries_of(lines, name):
    """The libraries of this repository that a crate is built on, each once and behind those that it is built on."""
    found = []
    for library in lines[name].split():
        if library in lines:
            found += libraries_of(lines, library) + [library]
    return list(dict.fromkeys(found))


def copied(place):
    """The crates of both programs, in place; what a kept copy has proved stays."""
    lines = crate_lines()
    lines['sketch_bench'] = ' sketch_base theta_core theta_sketches tuple_sketches'
    libraries = list(dict.fromkeys(libraries_of(lines, 'sketchtool') + libraries_of(lines, 'sketch_bench')))
    bench = os.path.join(place, 'crates', 'sketch_bench', 'src')
    os.makedirs(bench, exist_ok=True)
    shutil.copy(os.path.join(HERE, 'sketch_bench.rt.txt'), os.path.join(bench, 'main.rt'))
    for name in libraries + ['sketchtool']:
        source = os.path.join(TOP, 'crates', name)
        target = os.path.join(place, 'crates', name)
        os.makedirs(target, exist_ok=True)
        for part in os.listdir(source):
            there = os.path.join(target, part)
            if part == 'out' and os.path.exists(there):
                continue
            if os.path.isdir(there):
                shutil.rmtree(there)
            (shutil.copytree if os.path.isdir(os.path.join(source, part)) else shutil.copy)(os.path.join(source, part), there)
    with open(os.path.join(place, 'crates.txt'), 'w') as out:
        for name in libraries + ['sketchtool', 'sketch_bench']:
            out.write('%s:%s\n' % (name, lines[name]))


def built(place, name):
    folder = os.path.join(place, 'crates', name)
    done = subprocess.run(['rt', 'run'], cwd=folder, stdin=subprocess.DEVNULL, stdout=subprocess.PIPE, stderr=subprocess.STDOUT)
    if b'running out/' not in done.stdout:
        sys.exit(done.stdout.decode()[-3000:] + '\n%s is not proved or not built' % name)
    return os.path.join(folder, 'out', name)


def output(command, source=subprocess.DEVNULL):
    """What a command writes, and the nanoseconds of processor time that it takes in all."""
    before = resource.getrusage(resource.RUSAGE_CHILDREN)
    done = subprocess.run(command, stdin=source, stdout=subprocess.PIPE, check=True)
    after = resource.getrusage(resource.RUSAGE_CHILDREN)
    taken = after.ru_utime + after.ru_stime - before.ru_utime - before.ru_stime
    return done.stdout.decode(), taken * 1e9


def case_times(programs, case, size, runs, rounds):
    best, checks = [float('inf')] * 2, [None] * 2
    for _ in range(rounds):
        for i, program in enumerate(programs):
            words = output([program, case, str(size), str(runs)])[0].split()
            best[i] = min(best[i], int(words[4]) / int(words[2]))
            checks[i] = words[5]
    return best, checks


def text_times(place, tool, plain, case, rounds):
    path = os.path.join(place, 'plan')
    with open(path, 'w') as out:
        subprocess.run([plain, 'plan', case, str(LINES)], stdout=out, check=True)
    best, answers = [float('inf')] * 2, [None] * 2
    for _ in range(rounds):
        for i, command in enumerate([[tool], [plain, 'text']]):
            with open(path) as plan:
                answers[i], taken = output(command, plan)
            best[i] = min(best[i], taken / LINES)
    return best, answers


def row(name, size, best, answers):
    same = 'same' if answers[0] == answers[1] else 'DIFFERENT'
    print('%-18s %9d %12.2f %12.2f %7.2f  %s' % (name, size, best[0], best[1], best[0] / best[1], same), flush=True)


def main():
    p = argparse.ArgumentParser(description=__doc__, formatter_class=argparse.RawDescriptionHelpFormatter)
    p.add_argument('--rounds', type=int, default=7)
    p.add_argument('case', nargs='*')
    asked = p.parse_args()
    place = os.environ.get('BENCH_PLACE') or tempfile.mkdtemp()
    os.makedirs(place, exist_ok=True)
    place = os.path.abspath(place)
    try:
        copied(place)
        plain = os.path.join(place, 'plain')
        subprocess.run(['rustc', '--edition', '2024', '-O', '-C', 'target-cpu=x86-64-v2', '-o', plain, os.path.join(HERE, 'plain.rs')], check=True)
        wanted = [c for c in CASES if not asked.case or c[0] in asked.case]
        texts = [t for t in TEXTS if not asked.case or 'text_' + t in asked.case]
        bench = built(place, 'sketch_bench') if wanted else None
        tool = built(place, 'sketchtool') if texts else None
        # Neither gives memory back between its runs, so that no run pays for fresh pages by malloc's mood.
        os.environ['GLIBC_TUNABLES'] = 'glibc.malloc.trim_threshold=1073741824:glibc.malloc.mmap_threshold=1073741824'
        os.sched_setaffinity(0, {max(os.sched_getaffinity(0))})
        print('%-18s %9s %12s %12s %7s' % ('CASE', 'SIZE', 'here ns', 'Rust ns', 'ratio'), flush=True)
        for case, size in wanted:
            # Chosen hashes take a table seconds, and an intersection in plain Rust keeps one.
            runs = 1 if case.endswith('_chosen') else 3
            row(case, size, *case_times([bench, plain], case, size, runs, asked.rounds))
        for text in texts:
            row('text_' + text, LINES, *text_times(place, tool, plain, text, asked.rounds))
    finally:
        if not os.environ.get('BENCH_PLACE'):
            shutil.rmtree(place)


if __name__ == '__main__':
    main()
