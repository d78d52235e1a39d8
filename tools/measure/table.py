"""table.py COUNTER OUT DRIVER SYMBOLS [ENGINE..]: runs `driver bench` for each engine and size under the counter, and prints a table of the phases.

With the counter `time` it runs `driver time`, SYMBOLS times each, and prints medians of CPU time. ENGINE `unusual` stands for every unusual input."""
import re
import statistics
import subprocess
import sys

SIZES = [(64, 32), (200, 140), (512, 256), (1000, 700), (2000, 1400), (5000, 3500)]
LARGEST = (16384, 11468)
CORE = (1000, 900)  # a core is left that cannot be peeled
LISTS = [(100, 3), (200, 50), (1000, 500), (16384, 1000)]  # two lists of m variables below n
ENGINES = {'sum': LISTS, 'sparse': SIZES + [CORE], 'lazy': SIZES + [CORE], 'dense': SIZES + [CORE], 'slow': SIZES + [CORE], 'high': SIZES + [LARGEST], 'low': SIZES + [LARGEST]}
UNUSUAL = {'sparse/long': [(16, 12), (24, 20), (31, 28)], 'sparse/falling': [(16, 8), (31, 23), (32, 24), (1000, 700)], 'sparse/gaps': [(64, 32), (200, 140), (1000, 700)], 'sparse/tail': [(500, 1000)], 'sparse/far': [(600, 300), (6000, 3000)], 'lazy/far': [(600, 300), (6000, 3000)]}


def qemu(out, command, symbols):
    """The count of each phase, and the symbols that have most of it."""
    plugin = '%s/cross/libicount.so%s' % (out, ',symbols=%s' % symbols if symbols != '0' else '')
    # a plain x86-64: with `rep stosb` the emulator would count every byte that memset writes
    run = subprocess.run([out + '/cross/qemu', '-cpu', 'qemu64', '-plugin', plugin] + command, capture_output=True, text=True, check=True)
    phases = re.split(r'^phase \d+: ', run.stderr, flags=re.M)[1:]
    return run.stdout.split(), [(int(p.split('\n')[0]), p.split('\n')[1:-1]) for p in phases]


def callgrind(out, command, _):
    """Each phase as the difference of a run that has it and one that has none."""
    def total(phase):
        run = subprocess.run(['valgrind', '-q', '--tool=callgrind', '--callgrind-out-file=%s/counts' % out] + command[:-1] + [phase], capture_output=True, text=True, check=True)
        return run.stdout.split(), int(re.search(r'^totals: (\d+)', open(out + '/counts').read(), re.M).group(1))
    names, base = total('none')
    return names, [(count, []) for name in names for count in (0, total(name)[1] - base)]


def time(driver, runs, engines):
    """Microseconds of CPU, the median of all runs and, in brackets, the least and the most."""
    print('| engine | n | m | runs | Rust | here | here / Rust, run by run | rules | zeroing |')
    print('|---|---|---|---|---|---|---|---|---|')
    for engine, n, m in engines:
        run = subprocess.run([driver, 'time', engine, str(n), str(m), '1', runs], capture_output=True, text=True, check=True)
        rust, here, rules, zeroing = zip(*([int(k) / 1000 for k in line.split()] for line in run.stdout.splitlines()))
        ratios = [h / r for h, r in zip(here, rust)]
        shown = ['{:,.1f} ({:,.1f} to {:,.1f})'.format(statistics.median(k), min(k), max(k)) for k in (rust, here)]
        cells = [engine, '{:,}'.format(n), '{:,}'.format(m), runs, *shown, '{:.2f} ({:.2f} to {:.2f})'.format(statistics.median(ratios), min(ratios), max(ratios))]
        print('| ' + ' | '.join(cells + ['{:,.1f}'.format(statistics.median(k)) for k in (rules, zeroing)]) + ' |', flush=True)


def inputs(engines):
    """(engine, n, m) of each line of the table."""
    known = {**ENGINES, **UNUSUAL}
    named = [name for engine in engines or ENGINES for name in (UNUSUAL if engine == 'unusual' else [engine])]
    return [(name, n, m) for name in named for n, m in known[name]]


def main(counter, out, driver, symbols, engines):
    print('| engine | n | m | Rust | here | here / Rust | rules | zeroing | the rest / Rust |')
    print('|---|---|---|---|---|---|---|---|---|')
    for engine, n, m in engines:
        names, phases = counter(out, [driver, 'bench', engine, str(n), str(m), '1', 'all'], symbols)
        # before each named phase stands what led to it
        count = {name: phases[2 * k + 1] for k, name in enumerate(names)}
        rust, here, rules, zeroing = (count[k][0] for k in ('rust', 'here', 'rules', 'zeroing'))
        rust -= count['log'][0] if 'log' in count else 0
        cells = [engine] + ['{:,}'.format(k) for k in (n, m, rust, here)] + ['%.2f' % (here / rust)]
        cells += ['{:,}'.format(rules), '{:,}'.format(zeroing), '%.2f' % ((here - rules - zeroing) / rust)]
        print('| ' + ' | '.join(cells) + ' |', flush=True)
        for side in ('rust', 'here'):
            for line in count[side][1]:
                print('    %-5s %s' % (side, line.strip()))


if sys.argv[1] == 'time':
    time(sys.argv[3], sys.argv[4], inputs(sys.argv[5:]))
else:
    main({'qemu': qemu, 'callgrind': callgrind}[sys.argv[1]], sys.argv[2], sys.argv[3], sys.argv[4], inputs(sys.argv[5:]))
