"""drive.py COUNT DEVICE PROGRAM, in the folder of a switch on a device whose writes are logged: lets the switch serve, sends COUNT times a
bulletin or five at once, and leaves a mark in the device's log behind each receipt (`R_calls_receipts`) and behind the frames that came
out (`F_calls_NUMBER:TEXT_..`): what stands in front of a mark was said by then."""
import queue
import socket
import subprocess
import sys
import threading
import time

COUNT, DEVICE, PROGRAM = int(sys.argv[1]), sys.argv[2], sys.argv[3]
EOL = b'\r\r\n'
INPUT, OUTPUTS = 4101, (4201, 4202)
# Each so many calls five bulletins come at once.
FIVE = 10
SECONDS = 120


def mark(*words):
    subprocess.run(['dmsetup', 'message', DEVICE, '0', 'mark', '_'.join(map(str, words))], check=True)


def frame(number, text):
    message = b'\x01' + EOL + b'%05d' % number + EOL + b'SMBR01 TBPB 280600' + EOL + text + EOL + b'\x03'
    return b'%08dAN' % len(message) + message


def hears(listener, frames):
    while True:
        connection, _ = listener.accept()
        kept = b''
        while piece := connection.recv(1 << 16):
            kept += piece
            while len(kept) >= 10 and len(kept) >= 10 + int(kept[:8]):
                size = int(kept[:8])
                message, kept = kept[10:10 + size], kept[10 + size:]
                if size:
                    lines = message.split(EOL)
                    frames.put((lines[1].decode(), lines[3].decode()))


def main():
    frames = queue.Queue()
    listeners = [socket.create_server(('127.0.0.1', port)) for port in OUTPUTS]
    threading.Thread(target=hears, args=(listeners[1], frames), daemon=True).start()
    with open('/root/faults', 'w') as faults:
        switch = subprocess.Popen([PROGRAM, 'serve', 'always'], stdout=subprocess.PIPE, stderr=faults)
    until = time.monotonic() + SECONDS
    while True:
        try:
            to = socket.create_connection(('127.0.0.1', INPUT))
            break
        except OSError:
            if time.monotonic() > until:
                raise
            time.sleep(0.3)
    to.setsockopt(socket.IPPROTO_TCP, socket.TCP_NODELAY, 1)
    for call in range(COUNT):
        many = 5 if call % FIVE == FIVE - 1 else 1
        to.sendall(b''.join(frame(call * FIVE + number + 1, b'T%d.%d=' % (call, number)) for number in range(many)))
        accepted = 0
        while accepted < many:
            accepted += switch.stdout.readline().startswith(b'ACC')
        mark('R', call, many)
        got = [frames.get(timeout=SECONDS) for _ in range(many)]
        mark('F', call, *(f'{number}:{text}' for number, text in got))
    switch.kill()
    switch.wait()


main()
