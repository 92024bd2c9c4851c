"""wasm.py: what tests/targets.py tries of the module of WebAssembly: a module, not a command.

Small texts show how LLVM's text and that of the module are changed, and what is refused. One process of Node has the
module. The command line over the library, tests/library/driver.c, calls it through ask.c, so each row of tests/rows goes
through it; so does calls.c. heap.c tries its heap, and refuse.mjs the package for JavaScript with little memory. Where `jsc` is
installed, the engine of Safari without the browser, it reads the worker's scripts, and tallies the county by engine.js."""
import contextlib
import hashlib
import json
import os
import runpy
import shutil
import subprocess
import time
from functools import partial

from tenth import leave_out
from trials import FILES, compiled, printed, told_fault

HERE = os.path.dirname(os.path.abspath(__file__))
TOP = os.path.dirname(os.path.dirname(HERE))
COMPILED = ['gcc', '-std=gnu11', '-O1', '-Wall', '-Wextra', '-Werror', '-Wno-attributes', '-pthread', '-I', os.path.join(TOP, 'library')]
LOW = ['-no-pie', '-Wl,--defsym=__heap_base=0x10000008']        # where heap.c has its memory
PATIENCE = 60       # seconds until Node listens
PAGES = 64          # of 64 KiB, for refuse.mjs


# Texts for tools/targets and tools/narrow.py, with what they become, and what isn't known.
BEFORE = r"""target datalayout = "e-m:e-p270:32:32-p271:32:32-p272:64:64-i64:64-i128:128-f80:128-n8:16:32:64-S128"
target triple = "x86_64-unknown-linux-gnu"
@static.0 = private constant [9 x i8] c"@cvr_call"
define noundef i8 @cvr_call(ptr noundef %a0) #0 {
  %r0 = call { i64, i64 } @rattle_alloc(i64 8, i64 8)
  %r1 = call <16 x i8> @llvm.x86.ssse3.pshuf.b.128(<16 x i8> %r2, <16 x i8> %r3)
  ret i8 0
}
declare { i64, i64 } @rattle_alloc(i64 noundef, i64 noundef) #1
declare <16 x i8> @llvm.x86.ssse3.pshuf.b.128(<16 x i8>, <16 x i8>) #1
attributes #0 = { nounwind "probe-stack"="inline-asm" "stack-probe-size"="3072" "target-cpu"="x86-64-v2" }
attributes #1 = { nobuiltin nounwind }
"""
AFTER = r"""target datalayout = "e-m:e-p:64:64-p10:8:8-p20:8:8-i64:64-i128:128-n32:64-S128-ni:1:10:20"
target triple = "wasm64-unknown-unknown"
@static.0 = private constant [9 x i8] c"@cvr_call"
define noundef i8 @cvr_call(ptr noundef %a0) #0 "wasm-export-name"="cvr_call" {
  %r0 = call { i64, i64 } @rattle_alloc(i64 8, i64 8)
  %r1 = call <16 x i8> @cvr_shuffle(<16 x i8> %r2, <16 x i8> %r3)
  ret i8 0
}
declare { i64, i64 } @rattle_alloc(i64 noundef, i64 noundef) #1
attributes #0 = { nounwind }
attributes #1 = { nobuiltin nounwind }
"""
WIDE = """(module
  (func (;0;) (type 0) (param i64) (result i64)
    (local i64)
    local.get 0
    i64.load offset=8 align=1
    memory.grow
    i64.store8 offset=4)
  (func (;1;) (type 0)
    v128.load8_lane 1
    memory.copy
    memory.fill)
  (memory (;0;) i64 17)
  (data (;0;) (i64.const 1048576) "i64.load)"))
"""
NARROW = """(module
  (func (;0;) (type 0) (param i64) (result i64)
    (local i64)
(local $i64 i64)
    local.get 0
i32.wrap_i64
i64.load offset=8 align=1
i32.wrap_i64
memory.grow
i64.extend_i32_s
local.set $i64
i32.wrap_i64
local.get $i64
i64.store8 offset=4)
  (func (;1;) (type 0)
(local $from i64)
(local $i32 i32)
(local $i64 i64)
(local $v128 v128)
local.set $v128
i32.wrap_i64
local.get $v128
v128.load8_lane 1
local.set $i64
local.set $from
i32.wrap_i64
local.get $from
i32.wrap_i64
local.get $i64
i32.wrap_i64
memory.copy
local.set $i64
local.set $i32
i32.wrap_i64
local.get $i32
local.get $i64
i32.wrap_i64
memory.fill)
  (memory (;0;) 17)
  (data (i32.const 1048576) "i64.load)"))
"""
ODD = [('memory.copy', 'memory.init 0'), ('memory.copy', 'call_indirect (type 0)'), ('memory.copy', 'i32.atomic.load'), (' i64 17', ' 17')]


def text_faults(tool):
    """Yields a line for each text that is changed wrongly, or isn't refused, and None for each other."""
    way, narrowed = tool['FOR_WASM'], tool['narrow'].narrowed
    changed = tool['retargeted'](BEFORE, way)[0]
    yield None if changed == AFTER + way.more else 'tools/targets changes a text to %s' % changed
    changed = narrowed(WIDE)
    yield None if changed == NARROW else 'tools/narrow.py changes a text to %s' % changed
    for old, new in ODD:
        try:
            narrowed(WIDE.replace(old, new))
            yield 'tools/narrow.py takes a text with %s' % new
        except tool['Stopped']:
            yield None


@contextlib.contextmanager
def serving(module, folder):
    """Has a process of Node call the module for ask.c."""
    socket = os.environ['CVR_SOCKET'] = os.path.join(folder, 'socket')
    server = subprocess.Popen(['node', os.path.join(HERE, 'serve.mjs'), module, socket])
    try:
        for _ in range(10 * PATIENCE):
            if os.path.exists(socket) or server.poll() is not None:
                break
            time.sleep(0.1)
        yield
    finally:
        server.kill()
        server.wait()


def driver(folder):
    """The command line over the module."""
    return compiled(COMPILED, os.path.join(folder, 'driver'), 'library/driver.c', 'targets/ask.c')


def jsc_fault(module, folder):
    """What is wrong with the county's tally in the engine of Safari, or None."""
    html, package = runpy.run_path(os.path.join(TOP, 'tools/html')), os.path.join(folder, 'package.js')
    with open(package, 'w', encoding='utf-8') as file:
        file.write(html['package']())
    scripts = ['-e', 'globalThis.onmessage = null', package, *(os.path.join(TOP, 'web', it) for it in html['WORKER'])]      # which a worker has
    told = printed(['jsc', *scripts, os.path.join(HERE, 'engine.js'), '--', module, *FILES])[1]
    return None if hashlib.sha256(told.encode()).hexdigest() == json.loads(html['carried']())['sum'] else 'jsc: ' + told


def trials(module, folder):
    """Yields the trials of the module besides its rows: functions that answer what is wrong, or None."""
    if shutil.which('jsc'):
        yield partial(jsc_fault, module, folder)
    else:
        leave_out('the engine of Safari', 'there is no jsc. On Debian: apt-get install libjavascriptcoregtk-4.0-bin')
    heap, calls = os.path.join(folder, 'heap'), os.path.join(folder, 'calls')
    yield partial(told_fault, 'heap', [compiled(COMPILED + LOW, heap, 'targets/heap.c')])
    yield partial(told_fault, 'calls', [compiled(COMPILED + ['-DAPART'], calls, 'library/calls.c', 'targets/ask.c'), *FILES])
    yield partial(told_fault, 'refuse', ['node', '--wasm-max-mem-pages=%d' % PAGES, os.path.join(HERE, 'refuse.mjs'), module, *FILES])
