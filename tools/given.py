#!/usr/bin/env python3
"""Gives a checkout the libraries that a run of `rt ci` in another checkout has proved, or is proving, where the crate and all below it are the same text.

usage: tools/run given CHECKOUT_OF_CI LOG_OF_CI [CHECKOUT]

`rt check` then begins with them and proves nothing below again. CI cuts its libraries to their statements, which fit only libraries of the same run: so take
all of them from one run. What is checked over them gives no verdict: CI proves everything. The last checkout is the current folder's, where none is named.
"""
import hashlib, importlib.machinery, importlib.util, os, re, shutil, sys

PARTS = ('src', 'specs', 'proofs')


def rt_of_the_kit():
    """The kit's command as a module: it knows what a library's stamp is made of."""
    sys.dont_write_bytecode = True
    loader = importlib.machinery.SourceFileLoader('rt_of_the_kit', os.path.realpath(shutil.which('rt')))
    made = importlib.util.module_from_spec(importlib.util.spec_from_loader('rt_of_the_kit', loader))
    sys.modules['rt_of_the_kit'] = made
    loader.exec_module(made)
    return made.rtlib


def lines_of(top):
    """The line of crates.txt of each crate."""
    lines = open(f'{top}/crates.txt', encoding='utf-8')
    return {line.split()[0].rstrip(':'): ' '.join(line.split()) for line in lines if ':' in line and not line.startswith('#')}


def texts_of(folder):
    found = {}
    for part in PARTS:
        for at, _, names in os.walk(f'{folder}/{part}'):
            for name in names:
                with open(f'{at}/{name}', 'rb') as it:
                    found[os.path.relpath(f'{at}/{name}', folder)] = it.read()
    return found


class Checkout:
    def __init__(self, rtlib, top):
        self.rtlib, self.top, self.lines, self.stamps = rtlib, top, lines_of(top), {}
        self.crates = {it.name: it for it in rtlib.crates_below(top)}

    def stamp(self, name):
        """As the kit's, but reckoned once a crate."""
        if name not in self.stamps:
            crate = self.crates[name]
            total = hashlib.sha256(repr((crate.said, crate.has_c)).encode())
            with open(f'{self.rtlib.KIT}/WHAT', 'rb') as it:
                total.update(it.read())
            for file in self.rtlib.files_of(crate.folder):
                with open(file, 'rb') as it:
                    total.update(repr((file.replace(crate.folder, ''), it.read())).encode())
            total.update(repr([self.stamp(it.name) for it in crate.deps]).encode())
            self.stamps[name] = total.hexdigest()
        return self.stamps[name]


def give(mine, theirs, lines, proved):
    """Puts each library there that is missing; how many."""
    same, count = {}, 0

    def is_same(name):
        if name not in same:
            same[name] = False
            same[name] = (name in proved and mine.lines[name] == lines.get(name) and all(is_same(it.name) for it in mine.crates[name].deps)
                          and texts_of(f'{mine.top}/crates/{name}') == texts_of(f'{theirs}/crates/{name}'))
        return same[name]

    for name in mine.crates:
        source, target = f'{theirs}/crates/{name}/out/rlib/{name}.rlib', f'{mine.top}/crates/{name}/out/rlib'
        if not is_same(name) or not os.path.isdir(source):
            continue
        if os.path.isfile(f'{target}/stamp') and open(f'{target}/stamp', encoding='utf-8').read() == mine.stamp(name):
            continue
        shutil.rmtree(target, ignore_errors=True)
        os.makedirs(target)
        shutil.copytree(source, f'{target}/{name}.rlib', copy_function=os.link)
        with open(f'{target}/stamp', 'w', encoding='utf-8') as it:
            it.write(mine.stamp(name))
        count += 1
    return count


def main():
    if len(sys.argv) not in (3, 4):
        sys.exit(__doc__)
    theirs, log = os.path.abspath(sys.argv[1]), open(sys.argv[2], encoding='utf-8', errors='replace').read()
    top = os.path.abspath(sys.argv[3] if len(sys.argv) == 4 else '.')
    os.chdir(top)
    mine = Checkout(rt_of_the_kit(), top)
    proved = set(re.findall(r'^rt: (\w+) (?:proved|is kept)', log, re.M))
    print(f'{top}: {give(mine, theirs, lines_of(theirs), proved)} libraries put there')


if __name__ == '__main__':
    main()
