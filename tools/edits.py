"""The must-fail edits: a wrong program each, with its name, what its comment says, and its replacements.

    # state 3 is taken for active, in definition and code alike: `states` refuses it
    file: specs/Emergency.antt
    old: ..
    new: ..
"""

import glob
import os
import re

from common import Fault, read_text

NAMED = re.compile(r'`([^`]+)`')


class Edit:
    """An edit: its crate and name, what its comment says, and its replacements as (file, old text, new text)."""

    def __init__(self, path):
        self.crate, self.name = os.path.normpath(path).split(os.sep)[-3], os.path.basename(path)[:-len('.edit')]
        self.text, self.pairs = '', []
        file = old = ''
        for line in read_text(path).split('\n'):
            if line.startswith('# '):
                self.text += line[2:] + '\n'
            elif line.startswith('file: '):
                file = line[6:].strip()
            elif line.startswith('old: '):
                old = line[5:]
            elif line.startswith('new:'):
                self.pairs.append((file, old, line[4:].removeprefix(' ')))

    label = property(lambda self: f'{self.crate}/{self.name}')
    named = property(lambda self: NAMED.findall(self.text))

    def applied(self, folder):
        """The changed files of a crate, which lies in a folder: path -> text."""
        texts = {}
        for file, old, new in self.pairs:
            text = texts.get(file) or (read_text(f'{folder}/{file}') if os.path.isfile(f'{folder}/{file}') else '')
            if text.count(old) != 1:
                raise Fault(f'an old text stands {text.count(old)} times in {file}')
            texts[file] = text.replace(old, new)
        return texts


def read_edit(path):
    """An edit, by its path."""
    return Edit(path)


def edits_of(crate):
    """The edits of a crate, or of all by `*`, their paths from the repository's top, where this is called."""
    return sorted(glob.glob(f'crates/{crate}/must-fail/*.edit'))


def labels():
    """The names of all edits, as crate/name."""
    return ['/'.join((path.split('/')[1], os.path.basename(path)[:-len('.edit')])) for path in edits_of('*')]
