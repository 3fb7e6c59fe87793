"""Smali sources of apps of any size, for the scripts that measure."""
import os
import shutil
import subprocess

METHODS = 20


def smali_class(c, classes):
    """A class of METHODS methods. Nine of ten extend the class before; each method calls one of the next class."""
    own = f'Lapp/part{c % 37}/Class{c};'
    near = f'Lapp/part{(c + 1) % classes % 37}/Class{(c + 1) % classes};'
    above = 'Ljava/lang/Object;' if c % 10 == 0 else f'Lapp/part{(c - 1) % 37}/Class{c - 1};'
    yield f'.class public {own}\n.super {above}\n.implements Ljava/lang/Runnable;'
    for f in range(6):
        yield f'.field {"static" if f % 2 else "private"} field{f}:{"I" if f < 3 else "Ljava/lang/String;"}'
    for m in range(METHODS):
        yield f'''.method public static method{m}(ILjava/lang/String;)I
    .registers 6
    const-string v0, "class {c} method {m} says something"
    invoke-virtual {{v0}}, Ljava/lang/String;->length()I
    move-result v1
    :a
    div-int v2, v1, p0
    :b
    .catch Ljava/lang/ArithmeticException; {{:a .. :b}} :h
    .catchall {{:a .. :b}} :h
    sget v3, {own}->field1:I
    add-int v2, v2, v3
    invoke-static {{v2, v0}}, {near}->method{(m + 1) % METHODS}(ILjava/lang/String;)I
    move-result v2
    if-gez v2, :c
    neg-int v2, v2
    :c
    return v2
    :h
    move-exception v3
    throw v3
.end method
'''


def assemble(methods, path):
    """Writes the DEX file of an app of so many methods, where it is not there yet. Needs Debian's smali."""
    if os.path.exists(path):
        return
    sources = f'{path}.smali'
    os.makedirs(sources, exist_ok=True)
    classes = methods // METHODS
    for c in range(classes):
        with open(f'{sources}/Class{c}.smali', 'w') as out:
            out.write('\n'.join(smali_class(c, classes)))
    subprocess.run(['smali', 'assemble', '-a', '15', '-o', path, sources], check=True)
    shutil.rmtree(sources)
