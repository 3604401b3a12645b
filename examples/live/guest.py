"""Plays two components with no WebAssembly: their core functions are Python's. The files are those
of examples/a_string_is_handed_over: a user whose strings are UTF-8, and a provider whose strings are
UTF-16, both with empty core modules."""
import os
import subprocess

TOP = os.path.join(os.path.dirname(os.path.abspath(__file__)), '../..')
HUX = os.environ.get('HUX', os.path.join(TOP, 'hux'))
FILES = [os.path.join(TOP, 'examples/a_string_is_handed_over', name + '.wasm')
         for name in ('provider', 'user')]
memories = [bytearray(65536), bytearray(65536)]
tops = [1024, 1024]  # from here on a memory is free


def play(move):
    """Makes a move, and answers the words of the event that comes of it."""
    print(move, file=machine.stdin, flush=True)
    kind, *words = machine.stdout.readline().split()
    while kind == 'mem':
        at, data = int(words[1]), bytes.fromhex(words[2])
        memories[int(words[0])][at:at + len(data)] = data
        kind, *words = machine.stdout.readline().split()
    return kind, [int(word.removeprefix('i32:')) for word in words]


def write(instance, at, data):
    memories[instance][at:at + len(data)] = data
    play(f'write {at} {data.hex() or "-"}')


def allocate(instance, old, old_size, align, size):
    at = -(-tops[instance] // align) * align
    tops[instance] = at + size
    write(instance, at, bytes(memories[instance][old:old + min(old_size, size)]))
    return f'return i32:{at}'


def greet(instance, at, units):
    """What is provided: it returns where the place of its answer stands, and its units."""
    name = memories[instance][at:at + 2 * units].decode('utf-16-le')
    answer = f'Hello, {name}!'.encode('utf-16-le')
    write(instance, 64, answer)
    write(instance, 0, b''.join(n.to_bytes(4, 'little') for n in (64, len(answer) // 2)))
    return 'return i32:0'


FUNCTIONS = [[greet, allocate, lambda *_: 'return'], [allocate]]  # by instance and number
with subprocess.Popen([HUX, 'live', '--pages', '1,1', *FILES], text=True,
                      stdin=subprocess.PIPE, stdout=subprocess.PIPE) as machine:
    while machine.stdout.readline() not in ('ready\n', ''):
        pass  # the plan: empty core modules need none
    play('begin 1')
    name = 'Zoë 🦀'.encode()
    write(1, 0, name)
    event, words = play(f'call 1 i32:0 i32:{len(name)} i32:256')
    while event != 'resume':
        instance, function, *values = words
        event, words = play(FUNCTIONS[instance][function](instance, *values))
    at, size = (int.from_bytes(memories[1][n:n + 4], 'little') for n in (256, 260))
    print(memories[1][at:at + size].decode(), *play('return')[:1], sep='\n')
