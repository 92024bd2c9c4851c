"""The text of a WebAssembly module over a 64-bit memory, as `wasm2wat` writes it, for a 32-bit one: a module, not a command.

Numbers stay as they are. An address stays one of 64 bits, and is cut to 32 at each access. That is right for a program
that accesses no memory beyond what it was given. What isn't known here stops it."""
import re

from kit import Stopped

WRAP = 'i32.wrap_i64'
ACCESS = re.compile(r'(i32|i64|f32|f64|v128)\.(load|store)\w*')
MEMORY = {      # what stands before an instruction on the memory, and behind it
    'memory.size': ([], ['i64.extend_i32_u']),
    'memory.grow': ([WRAP], ['i64.extend_i32_s']),      # -1 stays -1
    'memory.fill': (['local.set $i64', 'local.set $i32', WRAP, 'local.get $i32', 'local.get $i64', WRAP], []),
    'memory.copy': (['local.set $i64', 'local.set $from', WRAP, 'local.get $from', WRAP, 'local.get $i64', WRAP], []),
}
KINDS = {'from': 'i64'}     # of a local whose name isn't its kind
UNKNOWN = re.compile(r'memory\.|table\.|call_indirect|\w+\.atomic|data\.drop|elem\.')
HEADS = [       # of the module: the old text, the new one, and whether it stands once
    (r'\(memory \(;0;\) i64 ', '(memory (;0;) ', True),
    (r'^  \(data \$?\S+ \(i64\.const (\d+)\)', r'  (data (i32.const \1)', False),
]


def around(code):
    """What is added before an instruction, and behind it."""
    word = code.split(' ', 1)[0]
    access = ACCESS.fullmatch(word)
    if access and access.group(2) == 'load' and 'lane' not in word:
        return [WRAP], []
    if access:      # the address is below a value
        return ['local.set $' + access.group(1), WRAP, 'local.get $' + access.group(1)], []
    if word not in MEMORY and UNKNOWN.match(word):
        raise Stopped('not known in the module: ' + word)
    return MEMORY.get(word, ([], []))


def function(text):
    """The text of a function, with the locals that it needs now."""
    lines = []
    for line in text.split('\n'):
        code = line.strip().rstrip(')')
        before, behind = around(code)
        if behind or before:
            closed = line[len(line.rstrip(')')):]
            lines += before + [code] + behind
            lines[-1] += closed
        else:
            lines.append(line)
    head = 2 if len(lines) > 1 and lines[1].startswith('    (local ') else 1
    used = sorted(set(re.findall(r'local\.set \$(\w+)', '\n'.join(lines))))
    return '\n'.join(lines[:head] + ['(local $%s %s)' % (it, KINDS.get(it, it)) for it in used] + lines[head:])


def narrowed(text):
    """The text of a module, without the names of its functions, for a 32-bit memory."""
    for old, new, is_one in HEADS:
        text, times = re.subn(old, new, text, flags=re.M)
        if is_one and times != 1:
            raise Stopped('no one text %s in the module' % old)
    first, *functions = text.split('\n  (func ')
    return '\n  (func '.join([first, *map(function, functions)])
