"""What the tests of the archive share: how one is run and ends, and C programs that are built with the
archive.  It comes first (tools/archive pillar), and is in the folder PILLAR_LIB, else in target/staticlib."""
import os
import pathlib
import subprocess
import sys

ROOT = pathlib.Path(__file__).resolve().parent.parent
sys.path.insert(0, str(ROOT / 'tools'))

from common import Fault, Words, run       # pylint: disable=wrong-import-position

ARCHIVE = os.environ.get('PILLAR_LIB', 'target/staticlib') + '/libpillar.a'
WARNINGS = '-Wall -Wextra -Werror -pedantic'.split()


def ended(command, given=b'', seconds=300):
    """What a command does with its input."""
    try:
        return subprocess.run(command, input=given, capture_output=True, check=False, timeout=seconds)
    except subprocess.TimeoutExpired:
        raise Fault(f'{command[0]}: no end in {seconds} seconds') from None


def written(command, given=b''):
    """What a command writes; it has to succeed."""
    done = ended(command, given)
    if done.returncode:
        said = (done.stderr or done.stdout).decode('utf-8', 'replace').splitlines()
        raise Fault(f'{" ".join(map(str, command))}: failed with {done.returncode}', *said)
    return done.stdout


def build(source, program, compiler=('gcc', '-std=c99', *WARNINGS), include='include'):
    """Build a program of C with the archive."""
    if not os.access(ARCHIVE, os.R_OK):
        raise Fault(f'no {ARCHIVE}: tools/archive pillar makes it')
    written([*compiler, f'-I{include}', '-o', program, source, '-x', 'none', ARCHIVE])


def test(name, text, main):
    """Run a test in the repository's folder; it takes no words but --help, which shows its text."""
    def at_root():
        Words(name, text).parse_args()
        os.chdir(ROOT)
        return main()

    run(name, at_root)
