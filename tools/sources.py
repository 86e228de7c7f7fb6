"""What the sources of crates have: functions with their clauses, what `use` lines bring in, and files of specs/."""

import re

FUNCTION = re.compile(r'(?m)^( *)(?:pub(?:\([a-z]+\))? )?(?:extern +(?:"C" )?)?fn (\w+)')
IMPL = re.compile(r'(?m)^impl(?:<[^>{]*>)? (?:[\w:]+(?:<[^{]*?>)? for )?(\w+)')
CLAUSE = re.compile(r'(?:\b(requires|ensures|ghost)\b(\*?) *(\w*) *:? *)?(\{)|;')
UNSEEN = re.compile(r'//[^\n]*|"(?:\\.|[^"\\])*"')
SPEC = re.compile(r'Rattle\.(\w+)\.specs\.(\w+)$')


class Function:
    """A function of a file: its name, behind that of its type; where the lines above it that belong to it begin, and where
    it ends; its clauses as (kind, name, text); and its body."""

    def __init__(self, name, begin, end, clauses, body):
        self.name, self.begin, self.end, self.clauses, self.body = name, begin, end, clauses, body


def behind(text, at):
    """The place behind the brace that closes the one at a place."""
    depth = 0
    for brace in re.compile('[{}]').finditer(text, at):
        depth += 1 if brace.group() == '{' else -1
        if not depth:
            return brace.end()
    return len(text)


def functions(text):
    """The functions of a .rt file, in their order."""
    text = UNSEEN.sub(lambda found: ' ' * len(found.group()), text)
    impls = [(found.start(), behind(text, text.find('{', found.start())), found.group(1)) for found in IMPL.finditer(text)]
    for found in FUNCTION.finditer(text):
        owner = next((name + '::' for begin, end, name in impls if begin < found.start() < end), '')
        begin = found.start()
        while begin:        # the attributes, each of which may have several lines
            above = text.rfind('\n', 0, begin - 1) + 1
            if not text[above:begin].strip() or text[above:begin].rstrip().endswith(('{', '}', ';')):
                break
            begin = above
        clauses, at, body = [], found.end(), (found.end(), found.end())
        while part := CLAUSE.search(text, at):
            if not part.group(4):       # in an array's type, or the end of a function without a body
                if text[part.end():part.end() + 1] == '\n':
                    break
                at = part.end()
                continue
            at = behind(text, part.start(4))
            if not part.group(1):
                body = part.start(4), at
                break
            clauses.append((part.group(1), part.group(3), text[part.end():at - 1]))
        yield Function(owner + found.group(2), begin, max(at, body[1]), clauses, text[body[0]:body[1]])


def enclosing(text, at):
    """The function that a place of a .rt file stands in, or nothing."""
    return next((each.name for each in functions(text) if each.begin <= at < each.end), '')


def uses(text):
    """What the `use` lines of a file bring in: names as name -> (module, name there), and modules as name -> module."""
    names, modules = {}, {}
    for module, group, alias in re.findall(r'(?m)^(?:ghost )?use ([^\s{;]+?)(?:\.\{([^}]*)\})?(?: as ([^\s;]+))?;?$', text):
        if not group:
            modules[alias or module.split('.')[-1]] = module
        for entry in filter(None, map(str.strip, group.split(','))):
            path, _, other = entry.partition(' as ')
            inside, _, name = path.rpartition('.')
            names[other or name] = (f'{module}.{inside}' if inside else module, name)
    return names, modules


def spec_file(module):
    """The file of a module of definitions, below crates/; nothing for one of the kit's."""
    found = SPEC.match(module)
    return '%s/specs/%s.antt' % found.groups() if found and found.group(1) not in ('std', 'core') else None
