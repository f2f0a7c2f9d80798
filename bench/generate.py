#!/usr/bin/env python3
"""Prints an input of a measurement, the same at every run: generate.py KIND WORD. What comes of each is known.

A script, as `campaign`:

- many      1,000 test cases of two behaviours: a component is created, started and waited for; its behaviour sets pass.
- verdicts  one test case of 64 behaviours of 1,000 steps, nearly all setverdict and getverdict in turn.
- status    the same with running, alive, done and killed.
- parked_N  64 behaviours, of which N wait until the last one has ended, the main one among them; the others make 1,000 status calls.
- stopped   as verdicts, but the first step ends the test case.

A legal history text of at most 16,777,216 bytes, as `check`: `one` block, `many` blocks of 2,000 entries and more, or as many `empty` blocks
as fit. In each block that has entries 63 components run until the last ones, so that each reply is known without a table.

A move list of at most WORD bytes, as `replay`: 64 behaviours, up to 999 parallel components, all kinds of moves. None is a dynamic
error, so the case continues to the end of the list.
"""
import sys

CASES = 1_000
BEHAVIOURS = 64
STEPS = 1_000
COMPONENTS = 999
BYTES_OF_HISTORIES = 16_777_216
state = 20_261_122

VERDICTS = ('setverdict pass', 'getverdict')
STATUS = ('running self', 'alive mtc', 'done mtc', 'killed self')


def turns(steps, count):
    return [steps[turn % len(steps)] for turn in range(count)]


def behaviour(name, steps):
    return [f'behaviour {name}', *steps, 'end']


def many_cases():
    main = ['create p', 'start p worker', 'wait done p', 'getverdict']
    for number in range(1, CASES + 1):
        yield f'testcase t_{number:04}'
        yield from behaviour('main', main)
        yield from behaviour('worker', ['setverdict pass'])
        yield 'end'


def one_case(steps, first=()):
    workers = range(1, BEHAVIOURS)
    main = [*first]
    for number in workers:
        main += [f'create p{number}', f'start p{number} w{number}']
    main += turns(steps, STEPS - len(main) - 1)
    main.append('wait done all')
    yield 'testcase t_one'
    yield from behaviour('main', main)
    for number in workers:
        yield from behaviour(f'w{number}', turns(steps, STEPS))
    yield 'end'


def parked(count):
    workers = range(1, BEHAVIOURS)
    last = BEHAVIOURS - 1
    yield 'testcase t_parked'
    yield from behaviour('main', [*(f'create p{number}' for number in workers),
                                  *(f'start p{number} w{number} p{last}' for number in workers), 'wait done all'])
    for number in workers:
        steps = ['wait done last'] if number < count else turns(STATUS, STEPS)
        yield from behaviour(f'w{number} last', steps)
    yield 'end'


def opening(components):
    for number in range(1, components + 1):
        yield f'0 create{" alive" if number % 2 else ""} -> made {number}\n'
    for number in range(1, BEHAVIOURS):
        yield f'0 start {number} {number} {number - 1} -> ok\n'


def round_of_calls():
    for run in range(1, BEHAVIOURS):
        other = run % (BEHAVIOURS - 1) + 1
        yield f'{run} setverdict pass -> ok\n'
        yield f'{run} getverdict -> pass\n'
        yield f'{run} running {other} -> true\n'
        yield f'{run} alive 0 -> true\n'
        yield f'{run} done {other} -> false\n'
        yield '0 killed all -> false\n'
        yield f'0 wait done {run} -> parked\n'
        yield f'0 wake done {run} -> parked\n'


def closing():
    for run in range(1, BEHAVIOURS):
        yield f'{run} finish -> ok\n'
    yield '0 wait done all -> matched\n'
    yield '0 running all -> false\n'
    yield '0 finish -> ok\n'


def block(number, components, rounds):
    middle = ''.join(round_of_calls()) * rounds
    return f'history 1 t_{number:06} {BEHAVIOURS}\n' + ''.join(opening(components)) + middle + ''.join(closing()) + 'end pass\n'


def one_block():
    room = BYTES_OF_HISTORIES - len(block(1, COMPONENTS, 0))
    return block(1, COMPONENTS, room // len(''.join(round_of_calls())))


def many_blocks():
    blocks = BYTES_OF_HISTORIES // len(block(1, BEHAVIOURS, 4))
    return ''.join(block(number, BEHAVIOURS, 4) for number in range(1, blocks + 1))


def empty_blocks():
    shortest = 'history 1 t 1\nend none\n'
    return shortest * (BYTES_OF_HISTORIES // len(shortest))


def below(n):
    """The next number of a fixed sequence, below n."""
    global state
    state = (state * 6364136223846793005 + 1442695040888963407) % 2**64
    return (state >> 33) % n


def some_component():
    return str(below(COMPONENTS) + 1)


def target():
    return ('any', 'all', some_component())[below(3)]


STATUSES = ('running', 'alive', 'done', 'killed')
# Each kind of move of the main behaviour, and of another one.
OF_MAIN = (
    *(lambda it=it: f'{it} {target()}' for it in STATUSES), lambda: 'wait done ' + some_component(), lambda: 'wait killed all',
    lambda: 'wake killed all', lambda: 'wake done ' + some_component(), lambda: f'stop {700 + below(200)}', lambda: f'kill {900 + below(99)}',
    lambda: 'setverdict none', lambda: 'getverdict')
OF_PARALLEL = (
    *(lambda it=it: f'{it} {some_component()}' for it in STATUSES), lambda: 'setverdict ' + ('none', 'pass', 'inconc', 'fail')[below(4)],
    lambda: 'getverdict', lambda: f'wait killed {500 + below(100)}', lambda: f'wake killed {500 + below(100)}',
    lambda: f'stop {700 + below(200)}', lambda: f'kill {900 + below(99)}')


def moves():
    for number in range(1, COMPONENTS + 1):
        yield '0 create alive' if number % 2 else '0 create'
    for run in range(1, BEHAVIOURS):
        yield f'0 start {run} {run}' + ''.join(f' {below(COMPONENTS)}' for _ in range(below(5)))
    yield '63 finish'
    while True:
        run = below(BEHAVIOURS)
        kinds = OF_PARALLEL if run else OF_MAIN
        yield f'{run} {kinds[below(len(kinds))]()}'


def move_list(limit):
    tail = ['0 stop all', '0 kill all', '0 killed all', '0 finish']
    room = limit - sum(len(line) + 1 for line in tail)
    lines = [f'behaviours {BEHAVIOURS}']
    used = len(lines[0]) + 1
    for line in moves():
        if used + len(line) + 1 > room:
            break
        lines.append(line)
        used += len(line) + 1
    return ''.join(f'{line}\n' for line in lines + tail)


SCRIPTS = {'many': many_cases(), 'verdicts': one_case(VERDICTS), 'status': one_case(STATUS), 'stopped': one_case(VERDICTS, ['stop mtc']),
           **{f'parked_{count}': parked(count) for count in (1, 8, 32)}}
HISTORIES = {'one': one_block, 'many': many_blocks, 'empty': empty_blocks}
KINDS = {'campaign': lambda word: ''.join(f'{line}\n' for line in SCRIPTS[word]), 'check': lambda word: HISTORIES[word](),
         'replay': lambda word: move_list(int(word))}
sys.stdout.write(KINDS[sys.argv[1]](sys.argv[2]))
