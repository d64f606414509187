#!/usr/bin/env python3
"""Builds the libraries of crates side by side, keeps them by the sum of their text, and puts them into checkouts of this repository.

usage: tools/run libraries [--lanes N] [--jobs N] [--rt COMMAND] [--give CHECKOUT]... [CRATE..]

It is for provers whose kit keeps nothing between runs, and who work in several worktrees: `rt check` in an upper crate first builds all below it, one after
another, in each checkout anew, and only one `rt` works in a checkout's crates at a time. This builds each library once, in a tree of its own, so that several
(--lanes, 3 by default) go on at once, each with so many jobs (--jobs, 1). They are kept in $IPAMD_LIBRARIES, or in ~/.cache/ipamd-libraries, under the sum of
the text of the crate and of all below it. This checkout gets them in crates/*/out/rlib, and so does each CHECKOUT where its text is the same. A library whose
text differs stays as it is: `rt` finds that by itself. All crates are built where none is named. It gives no verdict: CI proves everything anew.
"""
import argparse, hashlib, os, shutil, subprocess, sys, threading, time

TOP = os.path.dirname(os.path.dirname(os.path.abspath(__file__)))
KEPT = os.environ.get('IPAMD_LIBRARIES') or os.path.expanduser('~/.cache/ipamd-libraries')
PARTS = ('src', 'specs', 'proofs')


def crates_of(top):
    """The line and the libraries of each crate."""
    found = {}
    for line in open(f'{top}/crates.txt', encoding='utf-8'):
        name, colon, below = line.partition(':')
        if colon and not line.startswith('#'):
            found[name.split()[0]] = ' '.join(line.split()), below.split()
    return {name: (line, [it for it in below if it in found]) for name, (line, below) in found.items()}


def files_of(folder):
    for part in PARTS:
        for at, folders, names in os.walk(f'{folder}/{part}'):
            folders.sort()
            for name in sorted(names):
                yield f'{at}/{name}'


def sums_of(top, crates):
    """The sum of the text of each crate and of all below it."""
    sums = {}

    def sum_of(name):
        if name not in sums:
            own = hashlib.sha256()
            for file in files_of(f'{top}/crates/{name}'):
                with open(file, 'rb') as it:
                    own.update(os.path.relpath(file, top).encode() + b'\0' + it.read())
            sums[name] = hashlib.sha256(repr((crates[name][0], own.hexdigest(), [sum_of(it) for it in crates[name][1]])).encode()).hexdigest()
        return sums[name]

    for name in crates:
        sum_of(name)
    return sums


def below_of(crates, name, found=None):
    found = set() if found is None else found
    for it in crates[name][1]:
        if it not in found:
            found.add(it)
            below_of(crates, it, found)
    return found


def is_kept(total):
    return os.path.isfile(f'{KEPT}/{total}/rlib/stamp')


def link(source, target):
    os.makedirs(os.path.dirname(target), exist_ok=True)
    shutil.copytree(source, target, copy_function=os.link)


def build(given, crates, sums, name):
    """Builds one library in a tree that has nothing but it and the libraries below it; whether it was proved."""
    tree, below = f'{KEPT}/trees/{name}-{sums[name][:8]}', below_of(crates, name)
    shutil.rmtree(tree, ignore_errors=True)
    os.makedirs(f'{tree}/.git')
    shutil.copy(f'{TOP}/HANDLES', tree)
    with open(f'{tree}/crates.txt', 'w', encoding='utf-8') as it:
        it.writelines(crates[one][0] + '\n' for one in crates if one == name or one in below)
    for one in [name, *below]:
        for part in PARTS:
            if os.path.isdir(f'{TOP}/crates/{one}/{part}'):
                shutil.copytree(f'{TOP}/crates/{one}/{part}', f'{tree}/crates/{one}/{part}')
    for one in below:
        link(f'{KEPT}/{sums[one]}/rlib', f'{tree}/crates/{one}/out/rlib')
    begun = time.time()
    with open(f'{KEPT}/{name}.log', 'w', encoding='utf-8') as log:
        words = [given.rt, 'lib', '--jobs', str(given.jobs)]
        ran = subprocess.run(words, cwd=f'{tree}/crates/{name}', stdin=subprocess.DEVNULL, stdout=log, stderr=log)
    made = f'{tree}/crates/{name}/out/rlib'
    proved = ran.returncode == 0 and os.path.isfile(f'{made}/stamp')
    if proved:
        shutil.rmtree(f'{KEPT}/{sums[name]}', ignore_errors=True)
        link(made, f'{KEPT}/{sums[name]}/rlib')
    shutil.rmtree(tree, ignore_errors=True)
    print(f'{name}: {"proved" if proved else f"NOT PROVED, see {KEPT}/{name}.log"}, {time.time() - begun:.0f} s', flush=True)
    return proved


def build_all(given, crates, sums, wanted):
    """Builds what is not kept, the longest chain of text first; the crates that are kept then."""
    lines = {name: sum(1 for file in files_of(f'{TOP}/crates/{name}') for _ in open(file, 'rb')) for name in wanted}
    behind = {}
    for name in sorted(wanted, key=lambda it: -len(below_of(crates, it))):
        behind[name] = lines[name] + max([behind[it] for it in behind if name in crates[it][1]], default=0)
    kept, failed, running = {it for it in wanted if is_kept(sums[it])}, set(), {}
    while True:
        for name, (thread, result) in list(running.items()):
            if not thread.is_alive():
                (kept if result == [True] else failed).add(name)
                del running[name]
        left = wanted - kept - failed - set(running)
        ready = sorted((it for it in left if set(crates[it][1]) <= kept), key=lambda it: -behind[it])
        for name in ready[: given.lanes - len(running)]:
            result = []
            thread = threading.Thread(target=lambda it, to: to.append(build(given, crates, sums, it)), args=(name, result))
            thread.start()
            running[name] = thread, result
        if not running:
            return kept
        time.sleep(0.5)


def give(top):
    """Puts the libraries that are kept into a checkout, where it has none of them; how many."""
    crates, count = crates_of(top), 0
    for name, total in sums_of(top, crates).items():
        target = f'{top}/crates/{name}/out/rlib'
        if is_kept(total) and not os.path.isdir(target):
            link(f'{KEPT}/{total}/rlib', target)
            count += 1
    return count


def main():
    reader = argparse.ArgumentParser(usage=__doc__.split('\n\n')[1], add_help=False)
    reader.add_argument('--lanes', type=int, default=3)
    reader.add_argument('--jobs', type=int, default=1)
    reader.add_argument('--rt', default='rt')
    reader.add_argument('--give', action='append', default=[])
    reader.add_argument('crates', nargs='*')
    given = reader.parse_args()
    crates = crates_of(TOP)
    unknown = [it for it in given.crates if it not in crates]
    if unknown:
        sys.exit(f'no crate {unknown[0]}')
    wanted = set(given.crates or crates)
    for name in list(wanted):
        wanted |= below_of(crates, name)
    os.makedirs(KEPT, exist_ok=True)
    kept = build_all(given, crates, sums_of(TOP, crates), wanted)
    for top in [TOP, *given.give]:
        print(f'{top}: {give(top)} libraries put there')
    left = sorted(wanted - kept)
    if left:
        sys.exit(f'not built: {" ".join(left)}')


if __name__ == '__main__':
    main()
