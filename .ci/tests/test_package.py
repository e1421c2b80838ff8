"""What is installed of the program: by packaging/install under a folder of its own, and as a package of Debian in a root that has
nothing else. The manual page renders without a warning and names every command, file, end and line; the units are sound, and the
alerts name what is there, and fire when they should; a standby follows only where no switch is to run; what was installed runs;
what is counted for Prometheus came; each
script beside the switch has help and a manual page, and does nothing behind words that it doesn't know;
lintian finds no error; what was installed by hand before the package is told; systemd is told of what comes and goes; and when the
package is removed, and purged, each byte of the journal stays. A release is made of a clean commit over which the gate has passed,
of the program that the gate tried, and of nothing else.

    --break page       the manual page lacks its table of ends
    --break condition  a standby follows beside a switch that is to run
    --break journal    removing the package takes the journal with it
    --break release    the gate of a release has failed
    --break counts     a refused message isn't counted
    --break words      a script takes a word that it doesn't know for the name of a file"""
import hashlib
import os
import re
import shlex
import shutil
import socket
import subprocess

import gate
import pytest
import yaml
from gate import TOP, Folder
from limits import limit

SECONDS = 180
EXAMPLE = os.path.join(TOP, 'examples/first')
FAULTS = os.path.join(TOP, 'crates/gts_switch/src/fault.rt')
FILES = ['directory.toml', 'directory.old.toml', 'capture.gts', 'journal.0', 'journal.1', 'journal.2', 'circuit.NN.out']
# What scripts of a package may call in the clean root. `systemctl` takes down there what it is asked, and fails where it has to.
TOOLS = ['sh', 'rm', 'install', 'getent', 'useradd', 'systemd-sysusers', 'systemd-tmpfiles']
SYSTEMCTL = '#!/bin/sh\necho "$*" >>/tmp/systemctl\n[ ! -e /tmp/systemctl_fails ]\n'
UNITS = ['gts_switch.service', 'gts_switch-receipts.service', 'gts_switch-status.timer', 'gts_switch-standby.timer']
# Whether a standby follows, by what systemd says of the switch's unit there, and whether that is enabled.
FOLLOWS = {('inactive', False): True, ('failed', False): True, ('inactive', True): False, ('failed', True): False,
           ('active', True): False, ('active', False): False, ('activating', False): False, ('deactivating', False): False,
           ('', False): False}
USUAL_LIMIT = limit('USUAL_LIMIT')
# The group of who reads logs, in the clean root.
ADM = 4
DIRECTORY = 'centre = "TVSV"\n[[circuit]]\nname = "A"\npeer = "AAAA"\n'

faults = gate.Faults()
wants = faults.wants


@pytest.fixture(autouse=True)
def no_faults():
    """What was wrong in a test is told at its end."""
    faults.clear()
    yield
    assert not faults, '\n'.join(faults[:20])


def run(words, folder=None, **more):
    done = subprocess.run(words, cwd=folder, capture_output=True, timeout=SECONDS, **more)
    return done.returncode, done.stdout.decode(errors='replace'), done.stderr.decode(errors='replace').strip().partition('\n')[0]


def page_text(page):
    """The page as it is rendered, with one blank wherever there are some. It renders without a warning."""
    status, text, warnings = run(['groff', '-ww', '-man', '-Tutf8', '-P-cbou', '-rLL=1000n', page])
    wants('the page renders', (status, warnings), (0, ''))
    if shutil.which('man'):
        status, _, warnings = run(['man', '--warnings', '-l', page], env={**os.environ, 'MANWIDTH': '100', 'MANPAGER': 'cat'})
        wants('man renders the page', (status, warnings), (0, ''))
    return re.sub(r'\s+', ' ', text)


def lines_of_faults():
    """Each line of a fault, as the program has it, with the status that its end has."""
    with open(FAULTS) as file:
        source = file.read()
    statuses = dict(re.findall(r'Status::(\w+)(?:\(_\)| \{ \.\. \})? => (\d+),', source))
    arms = re.findall(r'Status::(\w+)[^=]*=> \{?\s*write!\(\s*f,\s*"([^"]*)"', source)
    wants('the lines of all ends', {name for name, _ in arms}, set(statuses))
    return [(line, statuses[name]) for name, line in arms if name != 'Done']


def calls_of(usage):
    """Each way in which the program is called, by its usage line: its words."""
    for call in usage.removeprefix('usage: ').replace(' or ', ', ').split(', '):
        word, _, more = call.partition(' [')
        yield word
        yield from (f'{word} {one.partition(" [")[0]}' for one in more.rstrip(']').split('|') if one)


def check_page(text):
    lines = lines_of_faults()
    usage = next(line for line, _ in lines if line.startswith('usage: '))
    calls = text.partition(' DESCRIPTION ')[0].split(' gts_switch ')
    calls = [form for call in calls for form in (call.replace(' [N]', ''), call.replace('[N]', 'N'), call.replace('"TTAAii CCCC" [cc]', 'HEADING'))]
    for words in calls_of(usage):
        wants(f'the synopsis has {words}', words in calls, True)
    for word in re.findall(r'(?:, | or )([a-z]+)', usage.replace('usage: ', ', ')):
        wants(f'the page names {word}', f'gts_switch {word}' in text, True)
    for name in FILES:
        wants(f'the page names {name}', name in text, True)
    wants('the page names the end 0', ' 0 All was done' in text, True)
    for line, status in lines:
        # The usage line stands below its heading.
        head = line.partition(':')[0] if line == usage else line
        pattern = re.sub(r'\\\{\w*\\\}', r'[A-Z]+', re.escape(head))
        wants(f'the page names the end {status}, {line}', bool(re.search(rf' {status} {pattern} ', text)) and (head == line or line in text), True)


def check_unit(unit, prefix):
    """The commands of a unit, as systemd runs them."""
    with open(unit) as file:
        text = file.read()
    wants(f'{unit} has the prefix', (f'={prefix}/' in text, '@PREFIX@' in text), (True, False))
    # What is started again for ever isn't given up behind some quick ends.
    if 'Restart=always' in text:
        wants(f'{unit} is started again for ever', re.findall('^StartLimitIntervalSec=(.*)', text, re.M), ['0'])
    # They take as long as the journal is large, or the line slow.
    if re.search('^Exec.*/(gts_switch compact|gts-switch-follow)', text, re.M):
        wants(f'{unit} has no limit for its start', re.findall('^TimeoutStartSec=(.*)', text, re.M), ['infinity'])
    if shutil.which('systemd-analyze'):
        more = {**os.environ, 'MANPATH': os.path.join(prefix, 'share/man')}
        units = os.path.dirname(unit)
        beside = [os.path.join(units, name) for name in os.listdir(units) if name.endswith('.service')]
        status, said, line = run(['systemd-analyze', 'verify', '--man=no', unit, *beside], env=more)
        wants(f'{unit} is sound', (status, said, line), (0, '', ''))
    # What systemd runs as its own user is about folders of this machine.
    commands = [words for marks, words in re.findall(r'^Exec\w+=([-+]*)(.*)$', text, re.MULTILINE) if '+' not in marks]
    return [shlex.split(words.replace('%%', '%')) for words in commands]


def check_program(program, commands, folder):
    for name in ('directory.toml', 'capture.gts'):
        shutil.copy(os.path.join(EXAMPLE, name), folder)
    wants('init', run([program, 'init'], folder), (0, '', ''))
    status, receipts, line = run([program, 'replay'], folder)
    wants('replay', (status, 'ACC ' in receipts, line), (0, True, ''))
    status, report, line = run([program, 'show'], folder)
    wants('show', (status, report.endswith('end\n'), line), (0, True, ''))
    # The unit's commands, in a folder whose circuits have no ports: what comes before is no hindrance, and serving begins.
    with open(os.path.join(folder, 'directory.toml'), 'w') as file:
        file.write(DIRECTORY)
    for name in ('journal.0', 'journal.1', 'journal.2'):
        os.remove(os.path.join(folder, name))
    wants('init of another directory', run([program, 'init'], folder), (0, '', ''))
    *before, serve = commands
    open(os.path.join(folder, 'receipts'), 'w').close()
    said = ''
    for words in before:
        status, text, _ = run(words, folder)
        wants(' '.join(words[1:]), status in (0, 2), True)
        said += text
    wants('the mark of a start', bool(re.fullmatch(r'START \d{4}-\d\d-\d\dT\d\d:\d\d:\d\dZ\n', said)), True)
    status, said, line = run(serve, folder)
    wants('serve of the unit', (status, said, line.splitlines()[:1]), (10, '', ['gts_switch: line fault on circuit 0']))


def units_of(text):
    """The units that a rule of an alert names."""
    return re.findall(r'[{,]name="([^"]*)"', text)


# What the running switch tells of its circuits, in the words of docs/OPERATING.md, and in those of a break of later versions.
TOLD = [('00', 'turned_away', 'gts_switch: circuit 0: turned away 192.0.2.9'),
        ('00', 'input_failed', 'gts_switch: circuit 0: input {}: read: Connection reset by peer (os error 104)'),
        ('01', 'output_failed', 'gts_switch: circuit 1: output 4102: connect: Connection refused (os error 111)'),
        ('01', 'connected', 'gts_switch: circuit 1: output 4102: connected'),
        ('01', 'broke', 'gts_switch: circuit 1: output 4102: broke: Connection reset by peer (os error 104); may be missing of the minute up '
         'to 10 s ago: 3010 frames, 105350 bytes, numbers 001 to 010; a round of 1000 or more, which the neighbour can\'t see'),
        ('01', 'broke', 'gts_switch: circuit 1: output 4102: broke: connection aborted; handed in the minute up to 3 s ago: 12 frames, 420 bytes'),
        ('01', 'begun_anew', 'gts_switch: circuit 1: output 4102: begun anew with the last 100; may be missing: 7 frames'),
        ('00', 'waits_for_room', 'gts_switch: circuit 0 waits for room'),
        ('01', 'waits_for_room', 'gts_switch: circuit 1 waits for room'),
        ('01', 'goes_on', 'gts_switch: circuit 1 goes on')]
RECEIVED = ['ACC 0 0 1 SMBR01 TBPB 280600', 'ACC 0 1 1 SMBR02 TBPB 280600', 'DUP 1 0', 'ASK 1 3 0', 'REF 0 Heading', 'REF 0 Heading', 'LOS 1 Length']


class Told:
    """A folder with what gts-switch-status reads: receipts, lines that were told, a switch's report, and a port on which one listens."""

    def __init__(self, at, broken=None):
        self.folder, self.broken = Folder('', str(at)), broken
        self.listener = socket.create_server(('127.0.0.1', 0))
        self.port = self.listener.getsockname()[1]
        self.folder.write('directory.toml', 'centre = "TVSV"\n' + ''.join(
            f'[[circuit]]\nname = "{name}"\npeer = "{name[:4]}"\ninput = {self.port + place}\noutput = {4101 + place}\n'
            for place, name in enumerate(('BARBADOS', 'GRENADA'))))
        self.reports(2, 0)
        self.folder.write('gts_switch', '#!/bin/sh\ncat report 2>/dev/null\n')
        os.chmod(self.folder.path('gts_switch'), 0o755)
        for name in ('receipts', 'faults'):
            self.folder.write(name, '')

    def reports(self, drawn, waiting):
        self.folder.write('report', f'accepted 2\ncircuit 00 BARBADOS draws {drawn} waiting {waiting} last 002\n'
                                    'circuit 01 GRENADA draws 0 waiting 0 last -\njournal used 300 limit 1000\nend\n')

    def more(self, name, lines):
        with open(self.folder.path(name), 'a') as file:
            file.write(''.join(f'{line}\n' for line in lines))

    def call(self):
        """What is written, each metric with its labels and its value."""
        more = {**os.environ, 'PATH': f'{self.folder.at}:{os.environ["PATH"]}'}
        words = [os.path.join(TOP, 'packaging/gts-switch-status'), '--log', 'faults', 'written.prom']
        wants('gts-switch-status', run(words, self.folder.at, env=more), (0, '', ''))
        text = self.folder.read('written.prom').decode()
        if self.broken == 'counts':
            text = text.replace('outcome="refused"} 2', 'outcome="refused"} 1')
        return dict(re.findall(r'^gts_switch_(\S+) (\S+)$', re.sub(r'" *,? *text="[^"]*', '', text), re.M))


def test_what_prometheus_is_told(broken, tmp_path):
    """Of receipts, lines and connections each is counted once, over several calls."""
    told = Told(tmp_path, broken)
    first = told.call()
    names = {'00': 'circuit="00",name="BARBADOS"', '01': 'circuit="01",name="GRENADA"'}
    wants('at first', [first.get(f'{name}{{{names["00"]}{more}}}') for name, more in
                       (('received_total', ',outcome="accepted"'), ('told_total', ',kind="broke"'), ('line_up', ',way="in"'))], ['0', '0', '0'])
    told.more('receipts', ['START 2026-01-01T00:00:00Z', *RECEIVED])
    told.more('faults', [line.format(told.port) for _, _, line in TOLD])
    told.reports(1, 3)
    with socket.create_connection(('127.0.0.1', told.port)):
        second = told.call()
        # Half a line isn't counted yet, and is once it is whole.
        with open(told.folder.path('receipts'), 'a') as file:
            file.write('ACC 0 2')
        wants('once more', {key: value for key, value in told.call().items() if 'total' in key},
              {key: value for key, value in second.items() if 'total' in key})
    told.more('receipts', [' 1 SMBR03 TBPB 280600'])
    last = told.call()
    got = {key: second.get(key) for key in (f'{name}{{{labels}{more}}}' for labels in names.values() for name, more in (
        [('received_total', f',outcome="{outcome}"') for outcome in ('accepted', 'duplicate', 'asked', 'refused', 'lost')]
        + [('may_be_missing_total', ''), ('waits_for_room', ''), ('line_up', ',way="in"'), ('line_up', ',way="out"')]))}
    wants('what came and stands', list(got.values()), ['2', '0', '0', '2', '0', '0', '1', '1', '0', '0', '1', '1', '0', '1', '3017', '0', '0', '0'])
    wants('the fields at fault', {key: value for key, value in second.items() if key.startswith('refused')},
          {f'refused_total{{{names["00"]},outcome="refused",field="Heading"}}': '2', f'refused_total{{{names["01"]},outcome="lost",field="Length"}}': '1'})
    for circuit, kind in {row[:2] for row in TOLD}:
        wants(f'lines {kind} of {circuit}', second.get(f'told_total{{{names[circuit]},kind="{kind}"}}'), str([row[:2] for row in TOLD].count((circuit, kind))))
    wants('what came last', last.get(f'received_total{{{names["00"]},outcome="accepted"}}'), '3')
    wants('its line behind that', last.get(f'line_up{{{names["00"]},way="in"}}'), '0')
    # A start forgets who waited, and where `show` fails the counts stay.
    told.more('receipts', ['START 2100-01-01T00:00:00Z'])
    told.folder.remove('report')
    ended = told.call()
    wants('behind a start', (ended.get(f'waits_for_room{{{names["00"]}}}'), ended.get('show_status'), ended.get('accepted_total')), ('0', '1', None))
    wants('counts behind that', ended.get(f'received_total{{{names["00"]},outcome="refused"}}'), '2')
    told.listener.close()


def test_lines_are_read_from_the_journal_of_systemd(tmp_path):
    """Over a journalctl that gives each line once, behind the one that the call before has seen."""
    told = Told(tmp_path)
    told.folder.write('journalctl', '#!/bin/sh\necho "$*" >>called\ncase "$*" in *--after-cursor=c1*) exit 0 ;; esac\n'
                      'echo \'{"__CURSOR":"c1","__REALTIME_TIMESTAMP":"1796000000000000","MESSAGE":"gts_switch: circuit 1: output 4102: connected"}\'\n')
    os.chmod(told.folder.path('journalctl'), 0o755)
    more = {**os.environ, 'PATH': f'{told.folder.at}:{os.environ["PATH"]}'}
    for _ in range(2):
        wants('the call', run([os.path.join(TOP, 'packaging/gts-switch-status'), 'written.prom'], told.folder.at, env=more), (0, '', ''))
    text = told.folder.read('written.prom').decode()
    wants('the line', re.findall(r'^gts_switch_(?:told_total.*connected.*|log_status|last_told.*) (\d+)$', text, re.M), ['0', '1', '1796000000', '0'])
    wants('from where it is read', re.findall('--(since|after-cursor)=', told.folder.read('called').decode()), ['since', 'after-cursor'])
    told.listener.close()


def test_alerts_are_about_what_is_there(tmp_path):
    """Each rule is whole, and names metrics that gts-switch-status or node_exporter write and units that are installed; and there is a
    trial in which it fires."""
    with open(os.path.join(TOP, 'packaging/alerts.yml')) as file:
        [group] = yaml.safe_load(file)['groups']
    with open(os.path.join(TOP, '.ci/tests/alerts.yml')) as file:
        trials = yaml.safe_load(file)['tests']
    fired = {rule['alertname'] for trial in trials for rule in trial['alert_rule_test'] if rule.get('exp_alerts')}
    told = Told(tmp_path)
    told.call()
    told.more('receipts', RECEIVED)
    told.more('faults', [line for _, _, line in TOLD])
    metrics = {'gts_switch_log_status', *(f'gts_switch_{key.partition("{")[0]}' for key in told.call())}
    told.listener.close()
    for rule in group['rules']:
        wants(f'the parts of {rule.get("alert")}', {*rule} - {'for'}, {'alert', 'expr', 'labels', 'annotations'})
        wants(f'what {rule["alert"]} says', bool(rule['annotations']['summary']), True)
        used = re.findall(r'(?<![.\w"])(gts_switch_\w+)(?!\.)\b', re.sub(r'"[^"]*"', '""', rule['expr']))
        wants(f'metrics of {rule["alert"]}', [name for name in used if name not in metrics], [])
        units = units_of(rule['expr'])
        wants(f'units of {rule["alert"]}', [name for name in units if not os.path.exists(os.path.join(TOP, 'packaging', name))], [])
        wants(f'{rule["alert"]} asks for something', bool(used or units or 'node_filesystem' in rule['expr']), True)
        wants(f'{rule["alert"]} fires in a trial', rule['alert'] in fired, True)
    about = {name for rule in group['rules'] for name in units_of(rule['expr'])}
    wants('the units that alerts are about', about, {f'gts_switch{name}.service' for name in ('', '-receipts', '-standby')})


@pytest.mark.skipif(not shutil.which('promtool'), reason="the alerts weren't fired: promtool of Debian's prometheus isn't there")
@pytest.mark.parametrize('name', ['alerts', 'cluster_alerts'])
def test_alerts_fire_when_they_should(name):
    status, said, line = run(['promtool', 'test', 'rules', os.path.join(TOP, f'.ci/tests/{name}.yml')])
    wants('the alerts over what Prometheus was told', (status, said if status else '', line if status else ''), (0, '', ''))


def test_a_standby_follows_only_where_no_switch_is_to_run(broken, tmp_path):
    """The condition of its unit, over a systemctl that answers so."""
    with open(os.path.join(TOP, 'packaging/gts_switch-standby.service')) as file:
        [condition] = re.findall('^ExecCondition=(.*)$', file.read(), re.M)
    if broken == 'condition':
        condition = "/bin/sh -c '! systemctl is-active --quiet gts_switch.service'"
    stub = tmp_path / 'systemctl'
    for (state, is_enabled), follows in FOLLOWS.items():
        stub.write_text(f'#!/bin/sh\ncase $1 in\nis-active) echo "{state}"; [ "{state}" = active ] ;;\n'
                        f'is-enabled) {"true" if is_enabled else "false"} ;;\nesac\n')
        stub.chmod(0o755)
        status, _, line = run(shlex.split(condition), env={**os.environ, 'PATH': f'{tmp_path}:{os.environ["PATH"]}'})
        what = f'a standby follows where the unit is {state or "unknown"}, {"" if is_enabled else "not "}enabled'
        wants(what, (status == 0, line), (follows, ''))


def check_about(program):
    """What the program tells of itself: its version stands in one place, and its help has each command of the usage line."""
    _, version, _ = run([os.path.join(TOP, 'packaging/version')])
    status, said, line = run([program, '--version'])
    wants('--version', (status, said.splitlines()[:1], line), (0, [f'gts_switch {version.strip()}'], ''))
    with open(os.path.join(TOP, 'docs/TRUST.md')) as file:
        kit = re.search(r'`rt version` says `(\S+) logic \w+`', file.read())
    wants('the kit, which docs/TRUST.md names', said.splitlines()[-1:], [f'kit: {kit[1]}'])
    status, said, line = run([program, '--help'])
    wants('--help', (status, line), (0, ''))
    usage = next(line for line, _ in lines_of_faults() if line.startswith('usage: '))
    for word in re.findall(r'(?:, | or )([a-z]+)', usage.replace('usage: ', ', ')):
        wants(f'--help has {word}', bool(re.search(rf'^  {word}\b.* [a-z]', said, re.M)), True)
    with open(os.path.join(TOP, 'CHANGELOG.md')) as file:
        wants('CHANGELOG.md has the version', f'\n## {version.strip()}\n' in file.read(), True)


def test_what_is_installed(program, broken, tmp_path):
    prefix, etc, folder = (str(tmp_path / name) for name in ('prefix', 'etc', 'run'))
    os.mkdir(folder)
    places = {**os.environ, 'PREFIX': prefix, 'SYSCONFDIR': etc}
    status, said, line = run([os.path.join(TOP, 'packaging/install'), program], env=places)
    wants('the installation', (status, line), (0, ''))
    rotation = Folder('', os.path.join(etc, 'logrotate.d'))
    wants('what logrotate reads', rotation.read('gts-switch'), Folder('', os.path.join(TOP, 'packaging')).read('gts_switch.logrotate'))
    rotation.write('gts-switch', '# changed\n')
    wants('the installation once more', run([os.path.join(TOP, 'packaging/install'), program], env=places)[::2], (0, ''))
    wants('what somebody changed there', rotation.read('gts-switch'), b'# changed\n')
    consoles = Folder('', os.path.join(etc, 'prometheus/consoles'))
    wants('the console', consoles.read('gts_switch.html'), Folder('', os.path.join(TOP, 'packaging')).read('console.html'))
    wants('it tells of neighbours on other hosts', 'IPAddressAllow' in said, True)
    text = page_text(os.path.join(prefix, 'share/man/man1/gts_switch.1'))
    check_page(text.replace('EXIT STATUS', '').split(' 0 All was done')[0] if broken == 'page' else text)
    for name in scripts():
        wants(f'the page of {name}', f'{name} - ' in page_text(os.path.join(prefix, f'share/man/man1/{name}.1')), True)
    units = os.path.join(prefix, 'lib/systemd/system')
    for name in sorted(os.listdir(units)):
        if name.endswith('.service') and name != 'gts_switch.service':
            check_unit(os.path.join(units, name), prefix)
    commands = check_unit(os.path.join(units, 'gts_switch.service'), prefix)
    check_program(os.path.join(prefix, 'bin/gts_switch'), commands, folder)
    check_about(os.path.join(prefix, 'bin/gts_switch'))
    status, said, line = run([os.path.join(prefix, 'bin/gts-switch-status')], folder)
    wants('what Prometheus is told', (status, line), (0, ''))
    wants('its lines', re.findall(r'^gts_switch_(\w+)(?:\{.*\})? (\d+)$', said, re.M),
          [('show_status', '0'), ('accepted_total', '0'), ('journal_used_bytes', str(os.path.getsize(os.path.join(folder, 'journal.1')))), ('journal_limit_bytes', str(USUAL_LIMIT)),
           ('drawn_total', '0'), ('waiting', '0')])


def scripts():
    """The names of the scripts beside the switch."""
    return sorted(name for name in os.listdir(os.path.join(TOP, 'packaging'))
                  if name.startswith('gts-switch-') and os.access(os.path.join(TOP, 'packaging', name), os.X_OK))


@pytest.mark.parametrize('name', scripts())
def test_a_script_has_help_and_does_nothing_behind_other_words(name, broken, tmp_path):
    """In a folder that has what the script would write over, over programs that take down that they were called."""
    script, work, stubs = os.path.join(TOP, 'packaging', name), tmp_path / 'work', tmp_path / 'stubs'
    for folder in (work, stubs):
        folder.mkdir()
    for stub in ('ssh', 'gts_switch', 'systemctl', 'journalctl'):
        (stubs / stub).write_text(f'#!/bin/sh\necho {stub} "$@" >>{tmp_path}/called\n')
        (stubs / stub).chmod(0o755)
    for file in ('capture.gts', 'directory.toml', 'receipts', 'FILE'):
        (work / file).write_text(f'{file}\n')
    before, more = everything(str(work)), {**os.environ, 'PATH': f'{stubs}:{os.environ["PATH"]}'}
    if broken == 'words':
        script = str(stubs / name)
        Folder('', str(stubs)).write(name, '#!/bin/sh\necho >"$1"\n')
        os.chmod(script, 0o755)
    for word in ('--help', '-h'):
        status, said, line = run([script, word], str(work), env=more)
        wants(f'{name} {word}', (status, name in said, line), (0, True, ''))
        wants(f'{name} FILE {word}', run([script, 'FILE', word], str(work), env=more)[::2], (0, ''))
    for words in (['--no-such-word'], ['FILE', '--no-such-word'], ['-n'], ['a'] * 9):
        status, said, line = run([script, *words], str(work), env=more)
        wants(f'{name} {" ".join(words)}', (status, said, bool(line)), (2, '', True))
    wants('what was there', everything(str(work)), before)
    wants('what was called', os.path.exists(tmp_path / 'called'), False)
    wants('its manual page', f'{name} - ' in page_text(os.path.join(TOP, 'packaging', f'{name}.1')), True)


def clean_root(at):
    """A root with the tools that a package's scripts call, their libraries, and dpkg's books. It looks as if systemd ran there."""
    for folder in ('bin', 'etc', 'tmp', 'usr/sbin', 'var/lib/dpkg/info', 'var/lib/dpkg/updates', 'var/log', 'proc', 'dev',
                   'run/systemd/system'):
        os.makedirs(os.path.join(at, folder))
    with open(os.path.join(at, 'bin/systemctl'), 'w') as file:
        file.write(SYSTEMCTL)
    os.chmod(os.path.join(at, 'bin/systemctl'), 0o755)
    os.symlink('bin', os.path.join(at, 'sbin'))
    for name in ('status', 'available'):
        open(os.path.join(at, 'var/lib/dpkg', name), 'w').close()
    for name in ('passwd', 'group', 'shadow', 'gshadow'):
        row = {'passwd': 'root:x:0:0::/:/bin/sh\n', 'group': f'root:x:0:\nadm:x:{ADM}:\n'}.get(name, '')
        with open(os.path.join(at, 'etc', name), 'w') as file:
            file.write(row)
    with open(os.path.join(at, 'etc/nsswitch.conf'), 'w') as file:
        file.write('passwd: files\ngroup: files\nshadow: files\n')
    for tool in TOOLS:
        path = shutil.which(tool)
        if path is None:
            continue
        shutil.copy(path, os.path.join(at, 'bin', tool))
        for library in re.findall(r'(/\S+) \(0x', run(['ldd', path])[1]):
            there = at + library
            os.makedirs(os.path.dirname(there), exist_ok=True)
            if not os.path.exists(there):
                shutil.copy(library, there)
    return at


def dpkg(root, *words):
    """How it ended, and all that it said."""
    # What the package depends on isn't in this root, but for what was put there.
    words = ['dpkg', f'--root={root}', '--force-depends', '--force-unsafe-io', *words]
    return run(['sh', '-c', 'exec "$@" 2>&1', 'sh', *words],
               env={**os.environ, 'PATH': '/usr/sbin:/usr/bin:/sbin:/bin', 'LC_ALL': 'C', 'DEBIAN_FRONTEND': 'noninteractive'})[:2]


def installed_by_hand(root, program):
    """The paths of programs and units that packaging/install puts into a root where it is called by hand."""
    places = {**os.environ, 'DESTDIR': root, 'PREFIX': '/usr/local', 'SYSCONFDIR': '/usr/local/etc'}
    wants('the installation by hand', run([os.path.join(TOP, 'packaging/install'), program], env=places)[::2], (0, ''))
    return sorted(os.path.join(here, name).removeprefix(root) for part in ('bin', 'lib')
                  for here, _, names in os.walk(f'{root}/usr/local/{part}') for name in names)


def everything(folder):
    """What a folder has: each file's bytes."""
    return {name: Folder('', folder).read(name) for name in sorted(os.listdir(folder))}


@pytest.fixture(scope='module')
def package(program, tmp_path_factory):
    to = str(tmp_path_factory.mktemp('package'))
    status, said, line = run([os.path.join(TOP, 'packaging/deb'), to, program])
    assert (status, line) == (0, '')
    return said.strip()


def test_lintian_finds_no_error(package):
    status, said, line = run(['lintian', '--allow-root', '--fail-on', 'error', package])
    print(said)
    wants('lintian', (status, [text for text in said.splitlines() if text.startswith('E:')]), (0, []))


def git(folder, *words):
    status, said, line = run(['git', '-c', 'user.name=a', '-c', 'user.email=a@b', '-C', folder, *words])
    assert (status, line) == (0, ''), line
    return said.strip()


def digest_of(path):
    with open(path, 'rb') as file:
        return hashlib.sha256(file.read()).hexdigest()


@pytest.mark.skipif(not os.path.isdir(os.path.join(TOP, '.git')), reason='a release is made of a commit')
def test_a_release_is_of_a_clean_commit_over_which_the_gate_has_passed(program, broken, tmp_path):
    clone, log, to = (str(tmp_path / name) for name in ('clone', 'log', 'to'))
    git(TOP, '-c', 'advice.detachedHead=false', 'clone', '-q', TOP, clone)
    os.makedirs(os.path.join(clone, 'crates/gts_switch/out'))
    shutil.copy(program, os.path.join(clone, 'crates/gts_switch/out/gts_switch'))
    commit, version = git(clone, 'rev-parse', 'HEAD'), run([os.path.join(clone, 'packaging/version')])[1].strip()
    own_kit = run([program, '--version'])[1].splitlines()[-1].removeprefix('kit: ')

    def released(over=commit, kit=own_kit, last='9 passed, 0 failed (1 crate)', tried=program, more=''):
        with open(log, 'w') as file:
            file.write(f'commit {over}\nkit {kit} logic 0\nprogram {digest_of(tried)}\n{more}{last}\n')
        return run([os.path.join(clone, 'packaging/release'), to, log])[::2]
    wants('another commit', released(over='0' * 40), (1, f"release: the gate didn't run over commit {commit}"))
    wants('a gate that failed', released(last='8 passed, 1 failed'), (1, "release: the gate didn't pass: 8 passed, 1 failed"))
    Folder('', clone).write('README.md', '')
    wants('a change', released(), (1, "release: there are changes that aren't committed"))
    git(clone, 'checkout', '-q', 'README.md')
    git(clone, 'tag', '-a', '-m', 'a tag', f'v{version}', git(clone, 'commit-tree', '-m', 'another commit', 'HEAD^{tree}'))
    wants('a version that is tagged', released()[0], 1)
    git(clone, 'tag', '-d', f'v{version}')
    wants('another program', released(tried=log), (1, "release: the program isn't the one that the gate tried"))
    wants('another kit', released(kit='another')[0], 1)
    wants('nothing was left', os.path.exists(to), False)
    wants('a release that leaves a part out', released(more='NOT RUN: a cable\n'), (0, 'NOT RUN: a cable'))
    shutil.rmtree(to)
    wants('the release', released(last='9 passed, 1 failed' if broken == 'release' else '9 passed, 0 failed'), (0, ''))
    wants('what it has', len(os.listdir(to)), 4)
    wants('its checksums', run(['sha256sum', '--quiet', '-c', f'gts-switch_{version}.sha256'], to), (0, '', ''))


@pytest.mark.skipif(os.geteuid() != 0, reason='a root is entered by root alone')
def test_the_package_in_a_clean_root(program, package, broken, tmp_path):
    root = clean_root(str(tmp_path / 'root'))
    asked = Folder('', os.path.join(root, 'tmp'))

    def told_systemd():
        """What systemd was asked since the last time, a line each."""
        lines = asked.read('systemctl').decode().splitlines()
        asked.remove('systemctl')
        return lines
    by_hand = installed_by_hand(root, program)
    status, said = dpkg(root, '--install', package)
    wants('the installation of the package', status, 0)
    wants('what was installed by hand is told', sorted(re.findall('^gts-switch: (.*) was installed by hand', said, re.M)), by_hand)
    wants('all of it', len(by_hand), 14)
    begins = ['daemon-reload', 'try-restart gts_switch.service gts_switch-receipts.service gts_switch-files@*.service']
    wants('systemd is told of the units', told_systemd(), begins)
    shutil.rmtree(os.path.join(root, 'usr/local'))
    asked.write('systemctl_fails', '')
    status, said = dpkg(root, '--install', package)
    wants('the installation once more, where systemd does not answer', (status, 'by hand' in said), (0, False))
    wants('systemd is told of the change', told_systemd(), ['daemon-reload', *begins])
    asked.remove('systemctl_fails')
    folder = os.path.join(root, 'var/lib/gts_switch')
    with open(os.path.join(root, 'etc/passwd')) as file:
        user = [row.split(':') for row in file if row.startswith('gts_switch:')]
    wants('the user', [(row[5], row[6].strip()) for row in user], [('/var/lib/gts_switch', '/usr/sbin/nologin')])
    wants('the folder', (os.path.isdir(folder), os.stat(folder).st_mode & 0o777, os.stat(folder).st_uid), (True, 0o750, int(user[0][2])))
    # What is made there is of the group adm.
    logs = os.stat(os.path.join(root, 'var/log/gts_switch'))
    wants('the folder of the logs', (oct(logs.st_mode & 0o7777), logs.st_uid, logs.st_gid), (oct(0o2750), int(user[0][2]), ADM))
    wants('what logrotate reads', os.path.exists(os.path.join(root, 'etc/logrotate.d/gts-switch')), True)
    wants('what Prometheus shows', os.path.exists(os.path.join(root, 'etc/prometheus/consoles/gts_switch.html')), True)
    installed = Folder(os.path.join(root, 'usr/bin/gts_switch'), folder, DIRECTORY)
    wants('init of what was installed', installed.run('init'), (0, b'', ''))
    wants('the examples', sorted(os.listdir(os.path.join(root, 'usr/share/doc/gts-switch/examples'))),
          ['alerts.yml', 'cluster', 'console.html', 'directory.toml', 'gts.conf', 'gts0.conf', 'gts0.nft', 'upload'])
    wants('those of two machines', sorted(os.listdir(os.path.join(root, 'usr/share/doc/gts-switch/examples/cluster'))),
          ['alerts.yml', 'cib.xml', 'corosync.conf', 'directory.toml', 'gts.res', 'gts_switch-address.service', 'gts_switch.conf', 'sbd',
           'timers', 'var-lib-gts_switch.mount'])
    before = everything(folder)
    for word in ('--remove', '--purge'):
        wants(f'{word} of the package', dpkg(root, word, 'gts-switch')[0], 0)
        ends = ['disable --now ' + ' '.join(UNITS), 'stop gts_switch-standby.service gts_switch-status.service gts_switch-files@*.service']
        # A purge begins with a removal, and comes to postrm once more.
        ends += ['daemon-reload'] * (2 if word == '--purge' else 1)
        wants(f'what systemd is asked at {word}', told_systemd(), ends)
        if broken == 'journal':
            os.remove(os.path.join(folder, 'journal.0'))
        wants(f'the folder behind {word}', everything(folder) if os.path.isdir(folder) else None, before)
        wants(f'the program behind {word}', os.path.exists(installed.program), False)
        if word == '--remove':
            wants('the package once more', (dpkg(root, '--install', package)[0], told_systemd()), (0, begins))
            wants('the folder behind that', everything(folder), before)
    left = [os.path.join(here, name) for here, _, names in os.walk(os.path.join(root, 'usr')) for name in names
            if re.search('gts[-_]switch', os.path.join(here, name))]
    wants('what is left under /usr', left, [])
