"""The tables of the library, the form that is made of them, and the lint."""
from __future__ import annotations

import contextlib
import io
import json
import shutil
import tempfile
import tomllib
import unittest
from pathlib import Path
from unittest import mock

from vet_tools import lists_lint, make_lists
from vet_tools.lists_javap import NoJavap, Shape, shapes, shapes_in
from vet_tools.lists_lookup import Lookup
from vet_tools.lists_model import Effects, TableFault, Tables
from vet_tools.lists_names import descriptor_of, written_out
from vet_tools.lists_shapes import IN_THE_JDK, declared_by, known_shapes, shape_faults
from vet_tools.lists_tables import FILES, read_tables
from vet_tools.lists_toml import lists_text

TOP = Path(__file__).resolve().parents[2]
LISTS = TOP / 'lists'
ANDROGUARD = Path('/usr/lib/python3/dist-packages/androguard/core/api_specific_resources')

SMALL = {
    'head.txt': 'rows 1000\ncategory id  numbers\ncategory net  the network\nshared kept java.util.Map\n',
    'classes.txt': '[java.lang]\nclass Object = blank\nfinal String = joined\ninterface Runnable\n'
                   '[java.util]\ninterface Map = mixed\n[a]\nclass Box : java.util.Map\nclosed Net\n',
    'methods.txt': '[java.lang.Object]\nString toString()  joined 0\n[java.lang.String]\nnew(String)  puts 1>0\n'
                   '[a.Net]\nstatic void post(Object,int)  sink net 0 -- sends it\n'
                   'static String id()  source id -- names the device\n',
    'callbacks.txt': '[java.lang.Runnable]\nvoid run()\n',
    'statics.txt': '',
}


def folder(changed: dict[str, str]) -> Path:
    """A folder with the small tables, but for the changed ones; where a text begins with + it is added."""
    made = Path(tempfile.mkdtemp())
    for name, text in SMALL.items():
        new = changed.get(name, '+')
        (made / name).write_text(text + new[1:] if new.startswith('+') else new)
    return made


class Case(unittest.TestCase):
    """What the cases have in common."""

    def tables(self, **changed: str) -> Tables:
        """The small tables with changes; a key is the name of a table without `.txt`."""
        made = folder({f'{key}.txt': text for key, text in changed.items()})
        self.addCleanup(shutil.rmtree, made)
        return read_tables(made)

    def rules(self, **changed: str) -> dict[str, str]:
        """The faults that the lint finds, by rule; of several of one rule the last."""
        return {fault.rule: str(fault) for fault in lists_lint.faults(self.tables(**changed))}

    def refused(self, **changed: str) -> str:
        """Why the tables are not read."""
        with self.assertRaises(TableFault) as raised:
            self.tables(**changed)
        return str(raised.exception)


class Lint(Case):
    """Each rule finds its fault, and none in tables that are right."""

    def test_right_tables_have_no_fault(self) -> None:
        self.assertEqual(self.rules(), {})

    def test_a_row_that_does_more_than_that_of_a_class_above(self) -> None:
        self.assertIn('java.util.Map', self.rules(
            methods='+[java.util.Map]\nObject get(Object)\n[a.Box]\nObject get(Object)  taken 0\n',
            callbacks='+[java.util.Map]\nObject get(Object)\n')['weaker'])

    def test_a_row_that_does_more_than_the_default_above(self) -> None:
        self.assertIn('methods.txt:9', self.rules(methods='+[a.Box]\nboolean equals(Object)  puts 1>0\n')['weaker'])

    def test_a_row_that_does_less_than_that_of_a_class_above_is_right(self) -> None:
        self.assertEqual(self.rules(methods='+[a.Box]\nString toString()\n'), {})

    def test_a_sink_that_the_row_above_lacks(self) -> None:
        self.assertIn('weaker', self.rules(
            methods='+[java.lang.Runnable]\nvoid run()\n[a.Work]\nvoid run()  sink net 0 -- sends it\n',
            classes='+class Work : java.lang.Runnable\n'))

    def test_a_reflective_row_above_is_as_strong_as_any(self) -> None:
        self.assertEqual(self.rules(
            methods='+[java.lang.Runnable]\nvoid run()  reflective -- by\n[a.Work]\nvoid run()  sink net 0 -- it\n',
            classes='+class Work : java.lang.Runnable\n'), {})

    def test_joined_without_a_constructor(self) -> None:
        self.assertIn('a.Name', self.rules(classes='+class Name = joined\n')['constructor'])
        self.assertIn('a.Name', self.rules(classes='+final Name = joined\n')['constructor'])

    def test_joined_without_objects_of_its_own_needs_none(self) -> None:
        self.assertEqual(self.rules(classes='+closed Words = joined\ninterface Said = joined\n'), {})

    def test_an_interface_method_without_a_callback(self) -> None:
        self.assertIn('Lisn', self.rules(classes='+interface Lisn\n',
                                         methods='+[a.Lisn]\nvoid heard(String)\n')['callback'])

    def test_a_callback_of_an_interface_above_is_enough(self) -> None:
        self.assertEqual(self.rules(classes='+interface Lisn : java.lang.Runnable\n',
                                    methods='+[a.Lisn]\nvoid run()\n'), {})

    def test_a_callback_of_a_closed_class(self) -> None:
        self.assertIn('a.Net', self.rules(callbacks='+[a.Net]\nvoid heard()\n')['closed'])

    def test_a_callback_that_is_an_event_in_the_life_of_a_component(self) -> None:
        classes = '+[android.app]\nclass Activity\nclass Application\n[b]\nclass Page : android.app.Activity\n'
        for owner, method in (('android.app.Activity', 'void onStop()'), ('b.Page', 'void onDestroy()'),
                              ('android.app.Application', 'void onCreate()')):
            self.assertIn('callbacks.txt:4', self.rules(classes=classes, callbacks=f'+[{owner}]\n{method}\n')['life'])
        self.assertEqual(self.rules(classes=classes, callbacks='+[android.app.Activity]\nvoid onStop(int)\n'
                                                               '[android.app.Application]\nvoid onStop()\n'), {})

    def test_what_is_set_is_got(self) -> None:
        self.assertIn('methods.txt:10', self.rules(
            methods='+[a.Box]\nvoid setSize(int)\nint getSize()\nboolean isOpen()\n')['kept'])
        for kept in ('void setSize(int)  puts 1>0\nint getSize()  joined 0\n', 'void setSize(int)\nint getHeight()\n',
                     'void setSize(int)  reflective -- far\nint getSize()\n'):
            self.assertEqual(self.rules(methods=f'+[a.Box]\n{kept}'), {})

    def test_parents_that_are_not_listed(self) -> None:
        self.assertIn('b.Lost', self.rules(classes='+class Found : b.Lost\n')['parents'])

    def test_a_class_above_itself(self) -> None:
        self.assertIn('circle', self.rules(classes='+class One : Two\nclass Two : One\n'))

    def test_reasons(self) -> None:
        for row in ('static String id2()  source id', 'static void put(Object)  sink net 0', 'void by()  reflective'):
            self.assertIn('methods.txt:9', self.rules(methods=f'+[a.Net]\n{row}\n')['reason'])
        self.assertIn('callbacks.txt:3', self.rules(callbacks='+void told(String)  source 1 id\n')['reason'])
        self.assertIn('statics.txt:2', self.rules(statics='[a.Net]\nString ID  source id\n')['reason'])

    def test_duplicates(self) -> None:
        self.assertIn('methods.txt:8', self.rules(methods='+static String id()\n')['twice'])
        self.assertIn('first at callbacks.txt:2', self.rules(callbacks='+void run()\n')['twice'])
        self.assertIn('statics.txt:3', self.rules(statics='[a.Net]\nString ID\nString ID\n')['twice'])
        self.assertIn('platform', self.rules(head='+platform Ljava/\nbundled Ljava/\n')['twice'])

    def test_static_and_not_static_are_two_methods(self) -> None:
        self.assertEqual(self.rules(methods='+String id()\n'), {})

    def test_names_that_are_not_listed(self) -> None:
        for table, text in (('methods', '+[b.Lost]\nvoid run()\n'), ('callbacks', '+[b.Lost]\nvoid run()\n'),
                            ('statics', '[b.Lost]\nString ID\n'), ('methods', '+void by(int)  sink mars 0 -- far\n'),
                            ('methods', '+String by()  source mars -- it\n'), ('methods', '+Object by()  shared no\n'),
                            ('methods', '+void by(int)  stores 1>gone\n'), ('head', '+shared lost b.Lost\n'),
                            ('callbacks', '+void told(String)  source 1 mars -- far\n')):
            self.assertIn('listed', self.rules(**{table: text}), text)

    def test_positions(self) -> None:
        for row in ('void by(int)  puts 2>0', 'static void by(int)  puts 1>0', 'static void by()  sink net 0 -- it',
                    'void by()  joined 0', 'int by()  shared kept', 'int by()  handed', 'void by(int)  copies 0>2',
                    'void by(int)  stores 2>kept', 'Object by(long,int)  taken 3'):
            self.assertIn('position', self.rules(methods=f'+{row}\n'), row)
        self.assertIn('position', self.rules(callbacks='+void told(String)  source 2 id -- it\n'))

    def test_a_wide_argument_counts_once(self) -> None:
        self.assertEqual(self.rules(methods='+Object by(long,double)  joined 0,1,2\n'), {})

    def test_limits_of_the_form(self) -> None:
        self.assertIn('4000001', self.rules(head=SMALL['head.txt'].replace('1000', '4000001'))['limits'])
        self.assertIn('limits', self.rules(head='+' + ''.join(f'category c{i}  it\n' for i in range(199))))
        self.assertIn('limits', self.rules(head='+category Big  it\n'))
        self.assertIn('limits', self.rules(classes=f'+class {"N" * 255}\n'))
        chain = ''.join(f'class C{i} : {f"C{i - 1}" if i else "Object"}\n' for i in range(64))
        self.assertIn('limits', self.rules(classes='+' + chain))
        self.assertNotIn('limits', self.rules(classes='+' + chain.rsplit('class C63', 1)[0]))

    def test_a_class_without_any_default(self) -> None:
        self.assertIn('default', self.rules(classes=SMALL['classes.txt'].replace(' = blank', '')))


class ClassFiles(Case):
    """What the lint says where it knows class files; their text is written by hand as `javap -p -s` prints it."""

    def faults(self, printed: str, **changed: str) -> dict[str, str]:
        tables, known = self.tables(**changed), shapes_in(printed)
        found = lists_lint.faults(tables, declared_by(known)) + shape_faults(tables, known)
        return {fault.rule: str(fault) for fault in found}

    def test_an_abstract_method_without_a_callback(self) -> None:
        printed = ('public abstract class a.Box<T extends java.lang.Object & java.util.Map<T, ?>> {\n'
                   '  protected abstract T made(java.util.Map<T, int[]>);\n'
                   '    descriptor: (Ljava/util/Map;)Ljava/lang/Object;\n'
                   '  public a.Box();\n    descriptor: ()V\n'
                   '  final void own();\n    descriptor: ()V\n}\n')
        self.assertIn('a.Box.made(Ljava/util/Map;)Ljava/lang/Object;', self.faults(printed)['callback'])
        self.assertEqual(self.faults(printed, callbacks='+[a.Box]\nObject made(java.util.Map)\n'), {})

    def test_a_row_below_a_blank_default_for_a_method_that_the_tables_do_not_name(self) -> None:
        printed = 'public interface java.lang.Runnable {\n  public abstract void run(int);\n    descriptor: (I)V\n}\n'
        more = {'classes': '+class Work : java.lang.Runnable\n', 'methods': '+[a.Work]\nvoid run(int)  puts 1>0\n',
                'callbacks': '+void run(int)\n'}
        self.assertIn('java.lang.Runnable', self.faults(printed, **more)['weaker'])
        self.assertEqual(self.faults('', **more), {})

    def test_a_constructor_of_a_joined_class(self) -> None:
        printed = ('public final class java.lang.String implements java.lang.Comparable<java.lang.String> {\n'
                   '  public java.lang.String(byte[]);\n    descriptor: ([B)V\n'
                   '  java.lang.String(byte[], int);\n    descriptor: ([BI)V\n}\n')
        self.assertIn('([B)V', self.faults(printed)['constructor'])
        self.assertEqual(self.faults(printed, methods='+[java.lang.String]\nnew(byte[])  puts 1>0\n'), {})

    def test_parents_and_kinds(self) -> None:
        self.assertIn('java.util.Map', self.faults(
            'public interface java.lang.Runnable extends java.util.Map<int[], a.Box> {\n}\n')['hierarchy'])
        self.assertIn('interface', self.faults('public interface a.Net {\n}\n')['kind'])
        open_class = 'public class a.Net {\n  protected a.Net();\n    descriptor: ()V\n}\n'
        self.assertIn('class', self.faults(open_class)['kind'])
        self.assertEqual(self.faults('public final class a.Box {\n}\n'), {})


class Reading(Case):
    """Lines that are not of their form are refused with their place."""

    def test_lines(self) -> None:
        for table, text, place in (
                ('classes', '+thing Odd\n', 'classes.txt:10'), ('classes', '+class Odd = green\n', 'classes.txt:10'),
                ('classes', '+class Box\n', 'classes.txt:10'), ('classes', 'class Odd\n', 'classes.txt:1'),
                ('classes', '+class Odd : Nowhere\n', 'classes.txt:10'), ('methods', '+nonsense\n', 'methods.txt:8'),
                ('methods', '+void odd(Nowhere)\n', 'methods.txt:8'), ('methods', '+void odd(void)\n', 'methods.txt:8'),
                ('methods', '+void odd()  eats 0\n', 'methods.txt:8'),
                ('methods', '+void odd()  puts\n', 'methods.txt:8'),
                ('methods', '+void odd()  puts 0\n', 'methods.txt:8'),
                ('methods', '+int odd()  same x\n', 'methods.txt:8'),
                ('methods', '+int odd()  same 0 joined 0\n', 'methods.txt:8'),
                ('methods', 'void odd()\n', 'methods.txt:1'),
                ('methods', '+int odd()  same 0 source id -- it\n', 'methods.txt:8'),
                ('methods', '+[a.Net\n', 'methods.txt:8'), ('callbacks', '+static void odd()\n', 'callbacks.txt:3'),
                ('callbacks', '+void odd()  source 1\n', 'callbacks.txt:3'),
                ('statics', '[a.Net]\nString\n', 'statics.txt:2'),
                ('statics', '[a.Net]\nNowhere ID\n', 'statics.txt:2'), ('head', '+rows many\n', 'head.txt:5'),
                ('head', '+category id  again\n', 'head.txt:5')):
            self.assertIn(place, self.refused(**{table: text}), text)

    def test_a_name_that_two_packages_have(self) -> None:
        self.assertIn('write the whole name', self.refused(
            classes='+[b]\nclass Twin\n[c]\nclass Twin\n', methods='+void by(Twin)\n'))

    def test_the_own_package_comes_first(self) -> None:
        tables = self.tables(classes='+class Twin\n[b]\nclass Twin\n', methods='+[a.Net]\nvoid by(Twin[],b.Twin)\n')
        self.assertEqual(tables.methods[-1].proto, '([La/Twin;Lb/Twin;)V')

    def test_choices_multiply(self) -> None:
        self.assertEqual(written_out('{a|b}({x|y,z})'), ['a(x)', 'a(y,z)', 'b(x)', 'b(y,z)'])

    def test_a_walk_upward_goes_through_each_parent_before_the_next(self) -> None:
        tables = self.tables(classes='[java.lang]\nclass Object = blank\n[a]\nclass One\nclass Two : One\nclass Three\n'
                                     'class Four : Two Three\n', methods='',
                             callbacks='', head='rows 1\ncategory id  it\n')
        self.assertEqual(tables.above('La/Four;'),
                         ['La/Four;', 'La/Two;', 'La/One;', 'Ljava/lang/Object;', 'La/Three;'])


WRITTEN = '''\
rows = 1000
categories = ["id", "net"]
strict = true
platform = ["La/"]
bundled = ["La/b/"]
large = "cells"

[[class]]
name = "Ljava/lang/Object;"
default = "blank"

[[class]]
name = "La/Up;"
parents = ["Ljava/lang/Object;"]

[[class]]
name = "La/Down;"
parents = ["La/Up;"]
default = "mixed"

[[shared]]
name = "kept"
class = "La/Up;"

[[method]]
class = "La/Up;"
name = "<init>"
proto = "(J)V"
puts = [[1, 0]]
stores = [[1, "kept"]]

# permission X
[[method]]
class = "La/Up;"
name = "id"
proto = "([I)La/Down;"
static = true
source = "id"

# sends it
[[method]]
class = "La/Up;"
name = "go"
proto = "(Ljava/lang/Object;)Ljava/lang/Object;"
result = "same"
from = [0]
copies = [[1, 0]]
sink = "net"
positions = [0, 1]

[[method]]
class = "La/Up;"
name = "one"
proto = "()La/Up;"
result = "shared"
shared = "kept"

[[method]]
class = "La/Up;"
name = "new2"
proto = "()La/Up;"
result = "joined"

# by name
[[method]]
class = "La/Up;"
name = "run"
proto = "()V"
reflective = true

[[method]]
class = "La/Up;"
name = "app"
proto = "()La/Up;"
result = "handed"

# what was typed
[[callback]]
class = "La/Down;"
name = "on"
proto = "(Ljava/lang/Object;)Z"
sources = [[1, "id"]]

# a number
[[static]]
class = "La/Up;"
name = "ID"
type = "Ljava/lang/String;"
source = "id"

[[static]]
class = "La/Up;"
name = "NONE"
type = "Ljava/lang/Object;"
'''


class Writing(Case):
    """The form that is made."""

    def small(self) -> Tables:
        return self.tables(
            head='rows 1000\nstrict\nlarge cells\ncategory id  it\ncategory net  it\nshared kept a.Up\nplatform La/\n'
                 'bundled La/b/\n',
            classes='[java.lang]\nclass Object = blank\n[a]\nclass Down : Up = mixed\nclass Up\n',
            methods='[a.Up]\nnew(long)  puts 1>0 stores 1>kept\nstatic Down id(int[])  source id -- permission X\n'
                    'Object go(Object)  same 0 copies 1>0 sink net 0,1 -- sends it\nUp one()  shared kept\n'
                    'Up new2()  fresh\nvoid run()  reflective -- by name\nUp app()  handed\n',
            callbacks='[a.Down]\nboolean on(Object)  source 1 id -- what was typed\n',
            statics='[a.Up]\njava.lang.String ID  source id -- a number\nObject NONE\n')

    def test_the_form_of_small_tables(self) -> None:
        self.assertEqual(tomllib.loads(lists_text(self.small())), tomllib.loads(WRITTEN))
        self.assertEqual(lists_text(self.small()).split('\n', 2)[2], WRITTEN)


KEYS = {'class': {'name', 'parents', 'default'}, 'shared': {'name', 'class'},
        'method': {'class', 'name', 'proto', 'static', 'result', 'from', 'shared', 'puts', 'stores', 'copies', 'source',
                   'sink', 'positions', 'reflective'},
        'callback': {'class', 'name', 'proto', 'sources'}}
DEVICE_KEYS = {'strict', 'platform', 'bundled', 'static'}


class Android(unittest.TestCase):
    """The lists of Android's library as they are committed."""

    @classmethod
    def setUpClass(cls) -> None:
        cls.tables = read_tables(LISTS)
        cls.text = (LISTS / 'android.toml').read_text()
        cls.form = tomllib.loads(cls.text)
        cls.lookup = Lookup(cls.tables)

    def test_the_made_file_is_what_the_tables_make(self) -> None:
        self.assertTrue(self.text == lists_text(self.tables), 'lists/android.toml is old: run tools/make-lists')

    def test_the_tables_have_no_fault(self) -> None:
        self.assertEqual([str(fault) for fault in lists_lint.faults(self.tables)], [])

    def test_the_tables_agree_with_the_jdk(self) -> None:
        known = known_shapes(self.tables, None)
        self.assertGreater(len(known), 500)
        hidden = {parent for shape in known.values() for parent in shape.parents} - set(known)
        found = lists_lint.faults(self.tables, declared_by(known)) + shape_faults(self.tables, known)
        self.assertEqual([str(fault) for fault in found], [])
        every = {**shapes(hidden), **known}
        for dotted in known:
            above = {descriptor_of(name) for name in everything_above(dotted, every)}
            told = {name for name in self.tables.classes[descriptor_of(dotted)].parents if name.startswith('Ljava/')}
            self.assertEqual(told - above - {'Ljava/lang/Object;'}, set(), dotted)

    def test_the_form_keeps_to_its_limits(self) -> None:
        form = self.form
        self.assertLessEqual(len(self.text.encode()), 16_777_216)
        self.assertEqual(set(form), {'rows', 'categories', *KEYS, *DEVICE_KEYS})
        for array, keys in KEYS.items():
            self.assertLessEqual(len(form[array]), 65_536)
            for row in form[array]:
                self.assertLessEqual(set(row), keys, row)
                texts = [row[key] for key in ('name', 'class') if key in row]
                self.assertTrue(all(1 <= len(text.encode()) <= 255 for text in texts), row)
        seen: set[str] = set()
        for row in form['class']:
            self.assertTrue(set(row.get('parents', [])) <= seen and row['name'] not in seen, row)
            seen.add(row['name'])
        for row in form['method'] + form['callback']:
            self.assertIn(row['class'], seen)

    def test_a_method_has_a_sink_and_positions_or_neither(self) -> None:
        for row in self.form['method']:
            self.assertEqual('sink' in row, 'positions' in row, row)
            if row.get('result', 'joined' if 'source' in row else 'blank') != 'joined':
                self.assertNotIn('source', row)

    def effects(self, owner: str, name: str, proto: str, static: bool = False) -> Effects:
        return self.lookup.effects(descriptor_of(owner), name, proto, static)

    def test_what_runs_code_by_a_name_is_reflective(self) -> None:
        text, thing, kind = 'Ljava/lang/String;', 'Ljava/lang/Object;', 'Ljava/lang/Class;'
        for owner, name, proto, static in (
                ('java.lang.Class', 'forName', f'({text}){kind}', True),
                ('java.lang.Class', 'newInstance', f'(){thing}', False),
                ('java.lang.reflect.Method', 'invoke', f'({thing}[{thing}){thing}', False),
                ('java.lang.System', 'loadLibrary', f'({text})V', True),
                ('java.lang.System', 'load', f'({text})V', True),
                ('dalvik.system.DexClassLoader', 'loadClass', f'({text}){kind}', False),
                ('java.io.ObjectInputStream', 'readObject', f'(){thing}', False),
                ('java.util.ServiceLoader', 'load', f'({kind})Ljava/util/ServiceLoader;', True),
                ('android.animation.ObjectAnimator', 'ofFloat',
                 f'({thing}{text}[F)Landroid/animation/ObjectAnimator;', True),
                ('android.webkit.WebView', 'addJavascriptInterface', f'({thing}{text})V', False),
                ('android.app.Fragment', 'instantiate',
                 f'(Landroid/content/Context;{text})Landroid/app/Fragment;', True)):
            self.assertTrue(self.effects(owner, name, proto, static).reflective, f'{owner}.{name}')

    def test_what_the_library_calls_has_a_callback_row(self) -> None:
        called = {(row['class'], row['name'], row['proto']) for row in self.form['callback']}
        for owner, name, proto in (
                ('java.lang.Object', 'finalize', '()V'), ('java.lang.Object', 'toString', '()Ljava/lang/String;'),
                ('java.lang.Object', 'equals', '(Ljava/lang/Object;)Z'), ('java.lang.Object', 'hashCode', '()I'),
                ('android.app.job.JobService', 'onStartJob', '(Landroid/app/job/JobParameters;)Z'),
                ('java.util.Comparator', 'compare', '(Ljava/lang/Object;Ljava/lang/Object;)I'),
                ('android.os.AsyncTask', 'doInBackground', '([Ljava/lang/Object;)Ljava/lang/Object;')):
            self.assertIn((descriptor_of(owner), name, proto), called)

    def test_a_call_through_object_is_as_strong(self) -> None:
        self.assertEqual(self.effects('java.lang.Object', 'toString', '()Ljava/lang/String;').positions, (0,))

    def test_what_permissions_guard_is_a_source(self) -> None:
        guarded = guarded_methods(self.tables)
        self.assertGreater(len(guarded), 50)
        open_rows = set()
        for owner, name, proto in guarded:
            static = (owner, name, proto, True) in self.lookup.rows
            effects = self.lookup.effects(owner, name, proto, static)
            if not (effects.source or effects.reflective):
                open_rows.add(f'{owner[1:-1].split("/")[-1]}.{name}')
        self.assertEqual(open_rows - NO_PERSONAL_DATA, set())

    def test_reasons_name_permissions_that_there_are(self) -> None:
        known: set[str] = set()
        for path in (ANDROGUARD / 'aosp_permissions').glob('*.json'):
            known |= {name.rsplit('.', 1)[-1] for name in json.loads(path.read_text())['permissions']}
        for row in [*self.tables.methods, *self.tables.callbacks, *self.tables.statics]:
            if row.reason.startswith('permission '):
                self.assertIn(row.reason.split()[1].rstrip(':;,'), known, row.reason)


# Guarded by a permission, and yet no personal data: states, numbers of kinds, handles whose methods have rows.
NO_PERSONAL_DATA = {
    'BluetoothA2dp.getConnectionState', 'BluetoothHeadset.getConnectionState', 'BluetoothManager.getConnectionState',
    'BluetoothAdapter.getProfileConnectionState', 'BluetoothAdapter.getScanMode', 'BluetoothAdapter.getState',
    'BluetoothDevice.getBondState', 'BluetoothDevice.getType', 'WifiManager.getWifiState',
    'BluetoothAdapter.getBluetoothLeAdvertiser', 'BluetoothAdapter.getBluetoothLeScanner',
    'BluetoothAdapter.listenUsingInsecureRfcommWithServiceRecord',
    'BluetoothAdapter.listenUsingRfcommWithServiceRecord', 'BluetoothDevice.connectGatt',
    'BluetoothDevice.createInsecureRfcommSocketToServiceRecord', 'BluetoothDevice.createRfcommSocketToServiceRecord',
    'BluetoothManager.openGattServer', 'LocationManager.getBestProvider', 'LocationManager.getProvider',
    'LocationManager.getProviders', 'ConnectivityManager.startUsingNetworkFeature',
    'ConnectivityManager.stopUsingNetworkFeature', 'SmsManager.divideMessage',
    'SubscriptionManager.getActiveSubscriptionInfoCount'}
GUARDS = {'READ_PHONE_STATE', 'ACCESS_FINE_LOCATION', 'ACCESS_COARSE_LOCATION', 'GET_ACCOUNTS', 'READ_SMS',
          'RECEIVE_SMS',
          'READ_CONTACTS', 'READ_CALL_LOG', 'USE_CREDENTIALS', 'AUTHENTICATE_ACCOUNTS', 'ACCESS_WIFI_STATE',
          'BLUETOOTH',
          'CAMERA', 'RECORD_AUDIO', 'GET_TASKS', 'READ_HISTORY_BOOKMARKS', 'LOCAL_MAC_ADDRESS'}
# What androguard's tables name and no SDK has: an app cannot call it.
HIDDEN = {'AccountManager', 'ActivityManager', 'BluetoothAdapter', 'BluetoothDevice', 'TelephonyManager', 'WifiManager',
          'SubscriptionManager', 'LocationManager', 'Geocoder', 'BluetoothManager', 'NfcAdapter', 'SmsManager'}


def guarded_methods(tables: Tables) -> set[tuple[str, str, str]]:
    """The methods of listed classes that androguard's tables call guarded by a permission to read personal data, that
    give something back, and that have a row or are not hidden."""
    rows = {(row.owner, row.name, row.proto) for row in tables.methods}
    found = set()
    for path in (ANDROGUARD / 'api_permission_mappings').glob('*.json'):
        for key, permissions in json.loads(path.read_text()).items():
            owner, name, proto = key.replace(' ', '').split('-', 2)
            guards = {permission.rsplit('.', 1)[-1] for permission in permissions} & GUARDS
            if owner in tables.classes and guards and proto[proto.index(')') + 1:] not in ('V', 'Z'):
                if (owner, name, proto) in rows or owner[1:-1].rsplit('/', 1)[-1] not in HIDDEN:
                    found.add((owner, name, proto))
    return found


def everything_above(name: str, known: dict[str, Shape]) -> set[str]:
    """Every class above one, as the JDK's class files say it."""
    found: set[str] = set()
    todo = [name]
    while todo:
        here = todo.pop()
        for parent in known[here].parents if here in known else ():
            if parent not in found:
                found.add(parent)
                todo.append(parent)
    return found


class Command(unittest.TestCase):
    """The tool as a person calls it, on a machine without a JDK."""

    def run_tool(self, *words: str) -> tuple[int, str, str]:
        out, err = io.StringIO(), io.StringIO()
        without = mock.patch.object(make_lists, 'known_shapes', side_effect=NoJavap('there is no javap'))
        with without, contextlib.redirect_stdout(out), contextlib.redirect_stderr(err):
            status = make_lists.main(list(words))
        return status, out.getvalue(), err.getvalue()

    def small(self, **changed: str) -> Path:
        made = folder({f'{key}.txt': text for key, text in changed.items()})
        self.addCleanup(shutil.rmtree, made)
        return made

    def test_it_makes_the_form(self) -> None:
        made = self.small()
        self.assertEqual(self.run_tool('--tables', str(made), '--lint')[:2], (0, ''))
        self.assertFalse((made / 'android.toml').exists())
        status, out, err = self.run_tool('--tables', str(made))
        self.assertEqual((status, out), (0, ''))
        self.assertIn('there is no javap', err)
        self.assertEqual(tomllib.loads((made / 'android.toml').read_text())['categories'], ['id', 'net'])

    def test_a_fault_leaves_the_made_file(self) -> None:
        made = self.small(methods='+static String id2()  source id\n')
        (made / 'android.toml').write_text('as it was')
        status, out, err = self.run_tool('--tables', str(made))
        self.assertEqual(status, 1)
        self.assertIn('methods.txt:8: La/Net;->id2()Ljava/lang/String; is a source', out)
        self.assertIn('nothing is made', err)
        self.assertEqual((made / 'android.toml').read_text(), 'as it was')
        self.assertEqual({path.name for path in made.iterdir()}, {*FILES, 'android.toml'})

    def test_what_cannot_be_read_is_said_in_a_sentence(self) -> None:
        status, _, err = self.run_tool('--tables', '/nowhere')
        self.assertEqual((status, err.count('\n')), (1, 1))
        self.assertIn('head.txt', err)
        made = self.small(methods='+odd\n')
        self.assertIn('methods.txt:8', self.run_tool('--tables', str(made))[2])
        self.assertIn('android.jar', self.run_tool('--tables', str(made), '--jar', '/nowhere')[2])
        self.assertIn('is no jar', self.run_tool('--tables', str(made), '--jar', str(made / 'head.txt'))[2])

    def test_help_has_an_example(self) -> None:
        out = io.StringIO()
        with self.assertRaises(SystemExit) as ended, contextlib.redirect_stdout(out):
            make_lists.main(['--help'])
        self.assertEqual(ended.exception.code, 0)
        self.assertIn('tools/make-lists --lint', out.getvalue())


class Prefixes(unittest.TestCase):
    """Which class files are asked of the JDK."""

    def test_only_what_the_jdk_has(self) -> None:
        self.assertTrue(all(not name.startswith('android') for name in IN_THE_JDK))


if __name__ == '__main__':
    unittest.main()
