#!/usr/bin/python3
"""A client of Ceph's monitors: commands come as JSON lines, and answers go as JSON lines. librados belongs to the system's Python.

usage: client.py CONFIGURATION
"""
import json
import sys
import threading

import rados


def answer(cluster, command):
    try:
        status, output, text = cluster.mon_command(json.dumps(command['ask']), b'', timeout=90)
        found = {'status': status, 'text': text, 'output': output.decode('utf-8', 'replace')}
    except Exception as why:
        found = {'status': -1, 'text': repr(why), 'output': ''}
    print(json.dumps({'id': command['id'], **found}), flush=True)


def main():
    cluster = rados.Rados(conffile=sys.argv[1], name='client.admin')
    cluster.connect(timeout=60)
    print(json.dumps({'id': 0, 'status': 0}), flush=True)
    for line in sys.stdin:
        threading.Thread(target=answer, args=(cluster, json.loads(line)), daemon=True).start()


if __name__ == '__main__':
    main()
