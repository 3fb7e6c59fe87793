#!/usr/bin/env python3
"""Writes smali sources of apps with many methods or classes: many_methods.py KIND FOLDER. The sizes stand below, by KIND.

chains       an activity calls two chains of 200 methods each, which lie in 20 classes. One carries the device id, and its
             last method posts what it gets; the other one carries a constant, and so does its last method. Every tenth
             method puts what it gets into a box and takes it out again.
ring         1,000 methods, each calling the next and the last one the first; the 501st posts what it gets.
subclasses   a class with 500 classes below it, and a call that may come to any of them; the 251st posts what it gets.
subclasses_one  the same, where objects of the first class alone are made.
"""
import sys

ID = 'invoke-static {}, Lvendor/Device;->id()Ljava/lang/String;'
POST = 'invoke-static {%s}, Lvendor/Net;->post(Ljava/lang/Object;)V'
CREATE = 'public onCreate(Landroid/os/Bundle;)V'


def smali_class(name, above, methods, fields=''):
    return f'.class public {name}\n.super {above}\n{fields}' + ''.join(methods)


def method(head, registers, lines):
    body = ''.join(f'    {line}\n' for line in lines)
    return f'\n.method {head}\n    .registers {registers}\n{body}.end method\n'


def activity(lines, registers):
    return smali_class('La/Main;', 'Landroid/app/Activity;', [method(CREATE, registers, lines)])


def chains(length=200, classes=20):
    def name_of(chain, i):
        return f'La/part{i % classes % 7}/{chain}{i % classes};'

    def step(chain, i):
        return f'{name_of(chain, i)}->step{i}(Ljava/lang/Object;)V'

    for chain in ['Id', 'Hello']:
        for c in range(classes):
            methods = []
            for i in range(c, length, classes):
                lines = [f'invoke-static {{p0}}, {step(chain, i + 1)}' if i + 1 < length else POST % 'p0', 'return-void']
                if i % 10 == 5:
                    lines = [
                        'new-instance v0, La/Box;',
                        'iput-object p0, v0, La/Box;->value:Ljava/lang/Object;',
                        'iget-object p0, v0, La/Box;->value:Ljava/lang/Object;',
                    ] + lines
                methods.append(method(f'public static step{i}(Ljava/lang/Object;)V', 2, lines))
            yield f'{chain}{c}', smali_class(name_of(chain, c), 'Ljava/lang/Object;', methods)
    yield 'Box', smali_class('La/Box;', 'Ljava/lang/Object;', [], '.field public value:Ljava/lang/Object;\n')
    yield 'Main', activity([
        ID, 'move-result-object v0', f'invoke-static {{v0}}, {step("Id", 0)}',
        'const-string v0, "hello"', f'invoke-static {{v0}}, {step("Hello", 0)}', 'return-void',
    ], 3)


def ring(length=1000):
    methods = []
    for i in range(length):
        lines = [f'invoke-static {{p0}}, La/Ring;->m{(i + 1) % length}(Ljava/lang/Object;)V', 'return-void']
        if i == length // 2:
            lines.insert(0, POST % 'p0')
        methods.append(method(f'public static m{i}(Ljava/lang/Object;)V', 1, lines))
    yield 'Ring', smali_class('La/Ring;', 'Ljava/lang/Object;', methods)
    yield 'Main', activity([ID, 'move-result-object v0', 'invoke-static {v0}, La/Ring;->m0(Ljava/lang/Object;)V', 'return-void'], 3)


def subclasses(count=500, made=500):
    go = 'public go(Ljava/lang/Object;)V'
    yield 'Base', smali_class('La/Base;', 'Ljava/lang/Object;', [method(go, 2, ['return-void'])])
    for i in range(count):
        lines = [POST % 'p1', 'return-void'] if i == count // 2 else ['return-void']
        yield f'Sub{i}', smali_class(f'La/Sub{i};', 'La/Base;', [method(go, 2, lines)])
    lines = [ID, 'move-result-object v1']
    for i in range(made):
        lines += [f'new-instance v0, La/Sub{i};', 'if-nez v1, :call']
    lines += [':call', 'invoke-virtual {v0, v1}, La/Base;->go(Ljava/lang/Object;)V', 'return-void']
    yield 'Main', activity(lines, 4)


KINDS = {'chains': chains, 'ring': ring, 'subclasses': subclasses, 'subclasses_one': lambda: subclasses(made=1)}
kind, folder = sys.argv[1:]
for name, text in KINDS[kind]():
    with open(f'{folder}/{name}.smali', 'w') as out:
        out.write(text)
