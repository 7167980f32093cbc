#!/usr/bin/env python3
"""Checks `lakefs batch` against Git: checks/git_lake.py [COUNT [SEED [PROGRAM]]]

Makes COUNT random histories (200 by default) of commands, a batch each: objects staged and removed, commits, branches, merges
with every strategy, reverts and cherry-picks. Beside each command Git does the same by its plumbing: `merge-tree` says
what comes out of a merge and which paths conflict, and a revert or a pick is a merge whose base is the commit or its
parent. Of each branch at the end Git says the files, the ancestors of its head, the first parents, and where
expressions lead; so it says the merge bases too, by what merges give. Pairs of commits with more than one merge base
aren't merged. Git has no strategy that decides a file that one side deleted, so what `source-wins` and `dest-wins` give
at the conflicting paths is due by the rule. A log is due in the order of generations, greatest first, and then of ids.

PROGRAM is the built program (by default crates/lakefs/out/lakefs, which `rt run` in its folder leaves there).
"""
import hashlib
import os
import pathlib
import random
import re
import subprocess
import sys
import tempfile

TOP = pathlib.Path(__file__).resolve().parent.parent
LAKE = 'lakefs://quickstart'
PATHS = [f'{folder}file-{letter}' for folder in ('', 'a/', 'b/c/') for letter in 'abcd']
VALUES = range(1, 6)
ID = '[0-9a-f]{64}'


def content(path, value):
    """A file's one line, whose length tells its value. No two paths have one in common, so that Git sees none renamed."""
    return hashlib.sha256(f'{path} {value}'.encode()).hexdigest() + 'x' * value


class Git:
    """A scratch repository, in which nothing but objects is made."""

    def __init__(self, folder):
        self.folder, self.made = folder, 0
        self.run('init', '-q', '--bare')
        self.blobs = {(path, value): self.run('hash-object', '-w', '--stdin', data=content(path, value))[0]
                      for path in PATHS for value in VALUES}
        self.values = {name: key[1] for key, name in self.blobs.items()}

    def run(self, *words, data=None):
        name = {f'GIT_{who}_{what}': word for who in ('AUTHOR', 'COMMITTER')
                for what, word in (('NAME', 'a'), ('EMAIL', 'a@example.org'), ('DATE', f'@{1000 + self.made} +0000'))}
        done = subprocess.run(['git', '-C', self.folder, *words], input=data, text=True, stdout=subprocess.PIPE,
                              stderr=subprocess.DEVNULL, env={**os.environ, **name})
        return done.stdout.split('\n') if words[0] == 'merge-tree' else done.stdout.split()

    def tree(self, files):
        return self.folder_tree([(path, path, value) for path, value in files.items()])

    def folder_tree(self, files):
        """The tree of a folder's files, each with its path, what is left of that in the folder, and its value."""
        rows, folders = [], {}
        for path, rest, value in files:
            first, slash, inner = rest.partition('/')
            if slash:
                folders.setdefault(first, []).append((path, inner, value))
            else:
                rows.append(f'100644 blob {self.blobs[path, value]}\t{first}\n')
        rows += [f'040000 tree {self.folder_tree(inner)}\t{folder}\n' for folder, inner in folders.items()]
        return self.run('mktree', data=''.join(rows))[0]

    def commit(self, files, parents):
        self.made += 1
        words = [word for parent in parents for word in ('-p', parent)]
        return self.run('commit-tree', self.tree(files), *words, '-m', 'x')[0]

    def merged(self, ours, theirs):
        """The files of a merge, and the paths that conflict."""
        out = self.run('merge-tree', '--write-tree', '--name-only', '--no-messages', ours, theirs)
        tree, conflicts = out[0], [line for line in out[1:] if line]
        rows = [line for line in subprocess.run(['git', '-C', self.folder, 'ls-tree', '-r', tree], text=True,
                                                stdout=subprocess.PIPE).stdout.split('\n') if line]
        files = {row.split('\t')[1]: self.values.get(row.split()[2]) for row in rows}
        return {path: value for path, value in files.items() if path not in conflicts}, sorted(set(conflicts))


class History:
    """A lake that commands make, and the same commits in Git. Commits are numbered as they come."""

    def __init__(self, git, chance):
        self.git, self.chance = git, chance
        self.lines, self.due = [], []
        self.commits = [([], {}, git.commit({}, []))]
        self.branches = {'main': 0}

    def say(self, line, due):
        """A command, with what is due: a pattern, or the number of the commit that it makes."""
        self.lines.append(line)
        self.due.append(due)

    def some_branch(self):
        return self.chance.choice(sorted(self.branches))

    def git_id(self, number):
        return self.commits[number][2]

    def made(self, branch, parents, files):
        """A new commit becomes the head of a branch."""
        self.commits.append((parents, files, self.git.commit(files, [self.git_id(parent) for parent in parents])))
        self.branches[branch] = len(self.commits) - 1
        return self.branches[branch]

    def write(self):
        branch = self.some_branch()
        head = self.branches[branch]
        files = dict(self.commits[head][1])
        for path in self.chance.sample(PATHS, self.chance.randint(1, 4)):
            if path in files and self.chance.random() < 0.3:
                del files[path]
                self.say(f'fs rm {LAKE}/{branch}/{path}', '')
            else:
                files[path] = self.chance.choice(VALUES)
                checksum, size = content(path, files[path]), 64 + files[path]
                self.say(f'fs stage {LAKE}/{branch}/{path} --location s3://{checksum} --size {size} --checksum {checksum}',
                         f'Path: {path}\nSize: {size}\nChecksum: {checksum}\n')
        line = f'commit {LAKE}/{branch} -m c{len(self.commits)}'
        if files == self.commits[head][1]:
            self.say(line, r'Error: no changes \[400\]\n')
            self.say(f'branch reset {LAKE}/{branch}', '')
        else:
            self.say(line, self.made(branch, [head], files))

    def begin(self):
        name, from_branch = f'b{len(self.branches)}', self.some_branch()
        text, number = self.expression(from_branch)
        if number is not None:
            self.branches[name] = number
            self.say(f'branch create {LAKE}/{name} --source {LAKE}/{text}', ('Created branch ', name, number))

    def expression(self, branch):
        """An expression, and the commit that Git finds there."""
        text, number = branch, self.branches[branch]
        for _ in range(self.chance.randint(0, 4)):
            kind, count = self.chance.choice('~^'), self.chance.randint(0, 2)
            text += f'{kind}{count}'
        found = self.git.run('rev-parse', '--verify', '-q', text.replace(branch, self.git_id(number), 1))
        ids = {name: at for at, (_, _, name) in enumerate(self.commits)}
        return text, ids[found[0]] if found else None

    def outcome(self, base, ours, theirs, strategy):
        """What a merge of files comes to: the files, or the paths that conflict."""
        start = self.git.commit(base, [])
        sides = [self.git.commit(files, [start]) for files in (ours, theirs)]
        return self.decided(*self.git.merged(*sides), ours, theirs, strategy)

    def decided(self, files, conflicts, ours, theirs, strategy):
        if conflicts and strategy is None:
            return None, conflicts
        wins = ours if strategy == 'dest-wins' else theirs
        return {**files, **{path: wins[path] for path in conflicts if path in wins}}, []

    def finish(self, line, branch, parents, base, theirs, came):
        """What comes of a merge, which is refused where the source has the files of the base."""
        files, conflicts = came
        if theirs == base:
            self.say(line, r'Error: no changes \[400\]\n')
        elif conflicts:
            self.say(line, rf'Error: conflicts: {len(conflicts)} \[409\]\n')
        else:
            self.say(line, self.made(branch, parents, files))

    def merge(self):
        source, dest = self.some_branch(), self.some_branch()
        one, head = self.branches[source], self.branches[dest]
        bases = self.git.run('merge-base', '--all', self.git_id(one), self.git_id(head))
        if len(bases) != 1:
            return
        strategy = self.chance.choice([None, None, 'source-wins', 'dest-wins'])
        ours, theirs = self.commits[head][1], self.commits[one][1]
        came = self.decided(*self.git.merged(self.git_id(head), self.git_id(one)), ours, theirs, strategy)
        line = f'merge {LAKE}/{source} {LAKE}/{dest}' + (f' --strategy {strategy}' if strategy else '')
        base = self.commits[self.number(bases[0])][1]
        self.finish(line, dest, [head, one], base, theirs, came)

    def turn(self):
        """A revert or a cherry-pick."""
        branch, other = self.some_branch(), self.some_branch()
        text, number = self.expression(other)
        if number is None or not self.commits[number][0]:
            return
        parents = self.commits[number][0]
        place = self.chance.randrange(len(parents))
        words = f' -m {place + 1}' if len(parents) > 1 else ''
        theirs, parent = self.commits[number][1], self.commits[parents[place]][1]
        head = self.branches[branch]
        ours = self.commits[head][1]
        if self.chance.random() < 0.5:
            came = self.outcome(theirs, ours, parent, None)
            self.finish(f'branch revert {LAKE}/{branch} {text}{words}', branch, [head], theirs, parent, came)
        else:
            came = self.outcome(parent, ours, theirs, None)
            # (By another user, so that it isn't the same commit again where the branch has the same head.)
            line = f'--user u{len(self.commits)} cherry-pick {LAKE}/{text} {LAKE}/{branch}{words}'
            self.finish(line, branch, [head], parent, theirs, came)

    def ask(self):
        """At the end: the files of each branch, its log, and where an expression leads."""
        for branch, number in sorted(self.branches.items()):
            rows = ''.join(f'object\t{64 + value}\t{path}\n' for path, value in sorted(self.commits[number][1].items()))
            self.say(f'fs ls {LAKE}/{branch} --recursive', rows)
            ids = self.git.run('rev-list', self.git_id(number))
            self.say(f'log {LAKE}/{branch} --amount 1000', ('log', {self.number(name) for name in ids}))
            first = self.git.run('rev-list', '--first-parent', self.git_id(number))
            self.say(f'tag create {LAKE}/t-{branch} {LAKE}/{branch}~{len(first) - 1}',
                     ('Created tag ', f't-{branch}', self.number(first[-1])))
            text, found = self.expression(branch)
            if found is not None:
                self.say(f'tag create {LAKE}/e-{branch} {LAKE}/{text}', ('Created tag ', f'e-{branch}', found))

    def number(self, name):
        return next(at for at, commit in enumerate(self.commits) if commit[2] == name)

    def make(self):
        for _ in range(self.chance.randint(5, 40)):
            self.chance.choice([self.write, self.write, self.write, self.begin, self.merge, self.merge, self.turn])()
        self.ask()
        return self


def generations(commits):
    """Of each commit one more than the greatest of its parents."""
    found = []
    for parents, _, _ in commits:
        found.append(1 + max((found[parent] for parent in parents), default=0))
    return found


def differs(history, out):
    """What of the output isn't what is due, or None."""
    ids, generation = {}, generations(history.commits)
    for line, due in zip(history.lines, history.due):
        if isinstance(due, int):
            pattern = rf'(?:Commit|Merged): ({ID})\n'
        elif isinstance(due, str):
            pattern = due
        elif due[0] == 'log':
            pattern = rf'(?:ID: {ID}\nAuthor: .*\nDate: .*\nMessage: .*\n\n)*'
        else:
            pattern = rf"{due[0]}'{due[1]}' ({ID})\n"
        found = re.match(pattern, out)
        if not found:
            return f'{line}\n  due: {pattern!r}\n  got: {out[:200]!r}'
        out = out[found.end():]
        if isinstance(due, int):
            ids[due] = found[1]
        elif not isinstance(due, str) and due[0] != 'log':
            if ids.setdefault(due[2], found[1]) != found[1]:
                return f'{line}: leads to another commit'
        elif not isinstance(due, str):
            shown = re.findall(rf'ID: ({ID})\n', found[0])
            last = shown[-1] if shown else None
            if ids.setdefault(0, last) != last:
                return f'{line}: ends at another commit'
            order = sorted({ids[number]: -generation[number] for number in due[1]}.items(), key=lambda row: (row[1], row[0]))
            if shown != [name for name, _ in order]:
                return f'{line}: another log'
    return None if not out else f'more came: {out[:200]!r}'


def main():
    count = int(sys.argv[1]) if len(sys.argv) > 1 else 200
    seed = int(sys.argv[2]) if len(sys.argv) > 2 else 1
    program = sys.argv[3] if len(sys.argv) > 3 else TOP / 'crates/lakefs/out/lakefs'
    made = {'commands': 0, 'merges': 0, 'conflicts': 0, 'reverts and picks': 0, 'differ': 0}
    with tempfile.TemporaryDirectory(prefix='git-') as folder:
        git = Git(folder)
        for number in range(count):
            history = History(git, random.Random(f'{seed} {number}')).make()
            lines = ''.join(line + '\n' for line in history.lines)
            ran = subprocess.run([program, 'batch', '--at', '1700000000'], input=lines, text=True, stdout=subprocess.PIPE)
            wrong = differs(history, ran.stdout)
            made['commands'] += len(history.lines)
            made['merges'] += sum(line.startswith('merge') for line in history.lines)
            made['conflicts'] += sum(isinstance(due, str) and 'conflicts' in due for due in history.due)
            made['reverts and picks'] += sum('revert' in line or 'cherry-pick' in line for line in history.lines)
            made['differ'] += wrong is not None
            if wrong:
                print(f'history {number}: {wrong}')
    print(f'{count} histories: ' + ', '.join(f'{found} {what}' for what, found in made.items()))
    return 1 if made['differ'] else 0


if __name__ == '__main__':
    sys.exit(main())
