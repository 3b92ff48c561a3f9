"""What the tools edits, functions and sizes share: one crate checked alone by the kit's prover, what it stands on being proved."""
import os, re, resource, subprocess, sys

top = os.path.dirname(os.path.dirname(os.path.abspath(__file__)))


def kit():
    try:
        return os.path.dirname(subprocess.run(['rt', 'doc'], capture_output=True, check=True, text=True).stdout.strip())
    except OSError:
        sys.exit(f'{os.path.basename(sys.argv[0])}: no rt on the PATH')


def crates():
    """{crate: the crates and libraries of the kit that it stands on}, in the order of crates.txt"""
    deps = {}
    for line in open(f'{top}/crates.txt', encoding='utf-8'):
        name, colon, rest = line.split('#')[0].partition(':')
        if colon:
            deps[name.strip()] = rest.split()
    return deps


def prove(name):
    """Proves the crate and all below it, as far as they are not."""
    done = subprocess.run(['rt', 'check'], cwd=f'{top}/crates/{name}', capture_output=True, text=True)
    if done.returncode:
        sys.exit(f'{os.path.basename(sys.argv[0])}: rt check in crates/{name} failed\n{done.stdout[-2000:]}{done.stderr[-2000:]}')


def spent():
    r = resource.getrusage(resource.RUSAGE_CHILDREN)
    return r.ru_utime + r.ru_stime


def check(name, where, kept=None):
    """Checks the crate as it stands in the folder where, in one process, over what the folder kept holds, if one is given, and keeps its work there.
    Gives the status, what was said, and the seconds of processor time (user and system)."""
    deps, home = crates(), kit()
    below = [d for d in deps[name] if d in deps]
    words = ['--crate-name', name, next(f for f in ('src/main.rt', 'src/lib.rt') if os.path.isfile(f'{where}/{f}'))]
    for d in ['std', *[d for d in deps[name] if d not in deps]]:
        words += ['--extern', f'{d}={home}/rlibs/{d}.rlib']
    words += ['-L', f'dependency={home}/rlibs']
    for d in below:
        words += ['--extern', f'{d}={top}/crates/{d}/out/rlib/{d}.rlib', '-L', f'dependency={top}/crates/{d}/out/rlib']
    words += ['--antt-project', f'{home}/rattle/logic/antt-project.json', '--logic-built', f'{home}/logic_built', '--jobs', '1']
    words += ['--incremental', kept] if kept else []
    before = spent()
    done = subprocess.run([f'{home}/bin/rattle', 'check', *words], cwd=where, stdin=subprocess.DEVNULL, stdout=subprocess.PIPE, stderr=subprocess.STDOUT)
    return done.returncode, done.stdout.decode('utf-8', 'replace'), spent() - before
