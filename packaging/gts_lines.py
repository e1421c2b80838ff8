"""The circuits of a directory file and their lines, for the scripts beside the switch: which connections stand now, by the system's
table of connections."""
import os
import tomllib

ESTABLISHED, LISTENS = '01', '0A'


def circuits_of(path='directory.toml'):
    """The circuits of a directory file, in their order; none where that can't be read."""
    try:
        with open(path, 'rb') as file:
            rows = tomllib.load(file).get('circuit', [])
        return [{'name': f'{row.get("name", "")}', 'host': row.get('host', '127.0.0.1'), 'input': row.get('input', 0),
                 'output': row.get('output', 0), 'closed': row.get('closed', False)} for row in rows]
    except (OSError, ValueError, AttributeError, TypeError):
        return []


def connections():
    """The rows of the system's table of connections: own and other address, each with a port, and the state."""
    def place(text):
        address, port = text.split(':')
        return '.'.join(str(byte) for byte in reversed(bytes.fromhex(address))), int(port, 16)
    try:
        with open('/proc/net/tcp') as file:
            rows = [line.split() for line in list(file)[1:]]
    except OSError:
        return []
    return [(place(row[1]), place(row[2]), row[3]) for row in rows]


def with_lines(circuits):
    """Those that have lines: they aren't closed, and have both ports."""
    return [circuit for circuit in circuits if not circuit['closed'] and circuit['input'] and circuit['output']]


def listens(circuits, rows=None):
    """The names of the circuits on whose port `input` somebody listens."""
    ports = {own[1] for own, _, state in (connections() if rows is None else rows) if state == LISTENS}
    return {circuit['name'] for circuit in with_lines(circuits) if circuit['input'] in ports}


def lines_of(circuits):
    """Of each circuit's two lines the connections that stand; none at all where no switch listens."""
    rows = connections()
    if not listens(circuits, rows):
        return {}
    found = {}
    for circuit in with_lines(circuits):
        # The system gives callers on this machine the address 127.0.0.1.
        hosts = {circuit['host'], *(['127.0.0.1'] if circuit['host'].startswith('127.') else [])}
        found[circuit['name'], 'in'] = sorted(f'{other}' for own, other, state in rows
                                              if state == ESTABLISHED and own[1] == circuit['input'] and other[0] in hosts)
        found[circuit['name'], 'out'] = sorted(f'{own}' for own, other, state in rows
                                               if state == ESTABLISHED and other == (circuit['host'], circuit['output']))
    return found


def program_beside(script):
    """The switch's program: that in the folder of a script, or else that on the path."""
    beside = os.path.join(os.path.dirname(os.path.abspath(script)), 'gts_switch')
    return beside if os.access(beside, os.X_OK) else 'gts_switch'
