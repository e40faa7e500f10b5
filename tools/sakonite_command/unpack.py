"""Job file to text, and to a tree of names."""

from sakonite import NAMES

from .contents import RECORD, REPLY, ROLES, TARGET, entries
from .faults import TARGET_HEAD, form_length, misnested, rule_text, rules, target_length
from .files import Bad
from .pack import DEEPEST

WIDTH = 100                # an element that fits in it is written on one line


def listed(mask):
    return ' '.join(str(state) for state in range(32) if mask >> state & 1) or 'none'


def target_text(offset, body):
    unsuited = target_length(body)
    if unsuited:
        raise Bad(unsuited, byte=offset)
    n = body[0]
    table = body[TARGET_HEAD:]
    default = max(range(256), key=table.count)
    yield 'target'
    yield f'  states {n}'
    yield f'  start {body[1]}'
    yield f"  accepting {listed(int.from_bytes(body[2:TARGET_HEAD], 'little'))}"
    yield f'  default {default}'
    heads = [f'open {q}' for q in range(n)] + [f'close {r} {q}' for r in range(n) for q in range(n)]
    for i, head in enumerate(heads):
        by_result = {}
        for c, result in enumerate(table[16 * i:16 * i + 16]):
            if result != default:
                by_result.setdefault(result, []).append(NAMES[c])
        for result, names in by_result.items():
            yield f"  {head} {' '.join(names)} -> {result}"


def form_text(c, offset, body):
    unsuited = form_length(f'form {NAMES[c]}', body)
    if unsuited:
        raise Bad(unsuited, byte=offset)
    yield f'form {NAMES[c]}'
    yield f'  states {body[0]}'
    yield f'  start {body[1]}'
    yield f'  accepting {listed(body[2])}'
    for sort, at, parts in rules(body):
        if parts['code'] > 15:
            raise Bad(f"code {parts['code']} in a rule of form {NAMES[c]} has no name", byte=offset + at + list(parts).index('code'))
        yield f'  {rule_text(sort, parts)}'


def forest(offset, body):
    """The record as a list of (name, list of the elements within)."""
    for at, message in misnested(body):
        raise Bad(message, byte=offset + at)
    levels = [[]]
    for at, tag in enumerate(body):
        if tag >= 16:
            levels.pop()
            continue
        if len(levels) > DEEPEST:
            raise Bad(f'more than {DEEPEST} elements are open together', byte=offset + at)
        inside = []
        levels[-1].append((NAMES[tag], inside))
        levels.append(inside)
    return levels[0]


def element_lines(element, indent):
    name, inside = element
    within = [element_lines(child, indent + 2) for child in inside]
    # the parts that fit on a line are put on one; those that do not keep their own lines
    if all(len(lines) == 1 for lines in within):
        line = f"{' ' * indent}{name}({' '.join(lines[0].strip() for lines in within)})"
        if len(line) <= WIDTH:
            return [line]
    return [f"{' ' * indent}{name}("] + [line for lines in within for line in lines] + [' ' * indent + ')']


def unpack(job):
    found = entries(job)
    lines = []
    for kind, c in ROLES:
        offset, body = found[kind, c]
        if lines:
            lines.append('')
        if kind == TARGET:
            lines += target_text(offset, body)
        elif kind == REPLY:
            lines += form_text(c, offset, body)
        else:
            lines.append('record')
            for element in forest(offset, body):
                lines += element_lines(element, 2)
    return ''.join(line + '\n' for line in lines).encode()


def tree(job):
    lines = []

    def show(elements, depth):
        for name, inside in elements:
            lines.append('  ' * depth + name + '\n')
            show(inside, depth + 1)

    show(forest(*entries(job)[RECORD, 0]), 0)
    return ''.join(lines).encode()
