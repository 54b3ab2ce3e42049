"""What .ci/within and .ci/across have in common: how an edit is read and applied, a copy of the crates to try it in, and what the log of a check
says of it.
"""
import os
import re
import shutil
import subprocess

# an error at a place: the file, the code if it is one of the source, and what is said
ERROR = re.compile(r'^(?:note: )?(?:\./)?(\S+?):\d+:\d+: error(\[[\w-]+\])?: (.*)')
# what is said where a name is missing or a text cannot be read
UNREAD = re.compile(r'is not in scope|that can be named|has no field|is no name|operand is missing|expected the end|cannot continue')
# what is said of declarations that rest on a refused one
REST = re.compile(r'^\d+ declarations? that depends? on ')
# a function's goal of which no proof was found
OPEN = re.compile(r'^fn \S+: no proof: .*did not prove|^note: (?:\./)?src/\S+:\d+:\d+: it is not proved that ')
# how many seconds a check may take: an edit may leave a term that is computed without end
LONGEST = 1200
VERDICT = re.compile(r'^logic=(proved|not-proved)\b', re.M)


def changes(path):
    """the changes of an edit: for each pair the file, the old text and the new one"""
    out, file, old = [], None, None
    with open(path, encoding='utf-8') as f:
        for line in f.read().split('\n'):
            if line.startswith('file: '):
                file = line[6:]
            elif line.startswith('old: '):
                old = line[5:]
            elif line.startswith('new:'):
                out.append((file, old, line[4:].removeprefix(' ')))
    return out


def read(path):
    if not os.path.isfile(path):
        return ''
    with open(path, encoding='utf-8') as f:
        return f.read()


def applied(root, pairs):
    """edits the files below a folder; whether each old text stood there once"""
    for file, old, new in pairs:
        path = os.path.join(root, file or '')
        text = read(path)
        if not old or text.count(old) != 1:
            return False
        with open(path, 'w', encoding='utf-8') as f:
            f.write(text.replace(old, new))
    return bool(pairs)


def unread(line):
    """whether a line of a log is an error that shows only that a name is missing or that a text cannot be read"""
    m = ERROR.match(line)
    if not m or REST.search(m.group(3)):
        return False
    return bool(m.group(2)) or not m.group(3).startswith('`') or bool(UNREAD.search(re.sub('`[^`]*`', '', m.group(3))))


def fact(line):
    """whether a line of a log says that a fact is not proved: an answer, a lemma or a theorem that does not hold, or a goal that is open"""
    m = ERROR.match(line)
    if not m:
        return bool(OPEN.match(line))
    return not unread(line) and not REST.search(m.group(3))


def verdicts(log):
    """what each check in a log came to, the crate's own last"""
    return VERDICT.findall(log)


def judged(log, files):
    """what a log says of an edit of these files: the lines by which it is refused, or none and why not"""
    lines = log.split('\n')
    said = verdicts(log)
    bad = next((k for k in lines if unread(k) and (ERROR.match(k).group(2) or ERROR.match(k).group(1) in files or ERROR.match(k).group(1).startswith(('src/', 'specs/')))), None)
    if bad:
        return [], 'BAD EDIT: the check cannot read it: ' + bad[:300]
    if not said:
        return [], 'NOT TRIED: the check came to no end\n' + '\n'.join(lines[-5:])
    if said[-1] == 'proved':
        return [], 'NOT REFUSED'
    found = [k for k in lines if fact(k)]
    if not found:
        first = next((k for k in lines if unread(k)), '')
        return [], 'BAD EDIT: it is refused only where a name is missing: ' + first[:300]
    return found, None


def below(name):
    """the crates of this repository that a crate stands on"""
    listed = dict(re.findall(r'^(\w+)(?: staticlib)?:(.*)$', read('crates.txt'), re.M))
    out = []
    for crate in listed[name].split():
        if crate in listed and crate not in out:
            out.append(crate)
            out += [k for k in below(crate) if k not in out]
    return out


def processors():
    """how many checks to run side by side: LANES, or one a processor, but no more than memory holds, of which each takes 1 to 3 GB"""
    if os.environ.get('LANES'):
        return int(os.environ['LANES'])
    with open('/proc/meminfo') as f:
        free = int(re.search(r'MemAvailable:\s+(\d+)', f.read()).group(1)) // 1000000
    return max(1, min(4, len(os.sched_getaffinity(0)), free // 3))


class Copy:
    """A copy of the crates, without what is made of them: rt begins with what checks in other folders of this machine kept."""

    def __init__(self, root):
        self.root = root
        for crate in sorted(os.listdir('crates')):
            self.restore(crate)
        shutil.copy('crates.txt', root)
        if os.path.isfile('HANDLES'):
            shutil.copy('HANDLES', root)

    def place(self, crate):
        return os.path.join(self.root, 'crates', crate)

    def restore(self, crate):
        """puts the crate's texts back"""
        for part in ('src', 'specs', 'proofs'):
            there, here = os.path.join('crates', crate, part), os.path.join(self.place(crate), part)
            shutil.rmtree(here, ignore_errors=True)
            if os.path.isdir(there):
                shutil.copytree(there, here)

    def check(self, crate):
        """the log of a check of a crate, of those below it too where they were not built yet"""
        words, how = ['rt', 'check', '--jobs', '1'], {'stdout': subprocess.PIPE, 'stderr': subprocess.STDOUT, 'text': True, 'errors': 'replace'}
        try:
            log = subprocess.run(words, cwd=self.place(crate), timeout=LONGEST, **how).stdout
        except subprocess.TimeoutExpired:
            log = 'the check took more than %d s' % LONGEST
        return log.replace(self.root + '/', '')

    def keep(self, crate):
        """holds what a check of a crate left, so that each edit is tried over that"""
        linked(os.path.join(self.place(crate), 'out'), os.path.join(self.root, 'kept', crate))

    def again(self, crate):
        """puts back what was held"""
        linked(os.path.join(self.root, 'kept', crate), os.path.join(self.place(crate), 'out'))


def linked(folder, to):
    """copies a folder; checked modules by links, since a check replaces such a file and writes into none"""

    def copy(one, other):
        if one.endswith('.oantt'):
            return os.link(one, other)
        return shutil.copy2(one, other)

    shutil.rmtree(to, ignore_errors=True)
    shutil.copytree(folder, to, copy_function=copy)
