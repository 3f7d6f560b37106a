#!/usr/bin/env python3
"""A lock manager of two sites over `cmh serve` of edition 3: exclusive locks, first come, first served.

    examples/locks.py [SECONDS]     the program is `cmh`, or the words of the variable CMH

A transaction is a process of a site, and has a thread. It waits for all that are ahead of it in the queue of a lock, and sleeps
until it is told to go on, or to be the victim of a deadlock: then it gives up its waits and what it holds, and tries again.
"""
import json
import os
import random
import socket
import subprocess
import sys
import tempfile
import threading
import time
from collections import Counter, defaultdict
from concurrent.futures import ThreadPoolExecutor
from contextlib import suppress

sys.path.insert(0, os.path.join(os.path.dirname(os.path.abspath(__file__)), '..', 'clients', 'python'))

from cmh import Refused, Site3

SITES = {1: range(1, 9), 2: range(101, 109)}
HOME = {process: site for site, processes in SITES.items() for process in processes}
LOCKS, WANTED, HELD = 12, 3, 0.002      # locks in all, those of a transaction, and for how many seconds it works


class Manager:
    def __init__(self, doors):
        self.changed = threading.Condition()
        self.sites = {site: Site3.at(door, patience=60) for site, door in doors.items()}
        self.queues = defaultdict(list)     # of each lock: its holder, and then those who wait for it
        self.named = defaultdict(set)       # of each process: who waits for it and was not answered
        self.asked = set()                  # (k, j): the request of j has come to k
        self.leaving = defaultdict(set)     # of each process: whom it can't ask again yet
        self.news = dict.fromkeys(HOME, '')  # of each process since its ask: '', 'declared' or 'active'
        self.counts = Counter()
        for door in doors.values():
            (watched := Site3.at(door)).watch()
            threading.Thread(target=self.listen, args=(watched,), daemon=True).start()

    def listen(self, watched):
        for what in watched.happenings():
            with self.changed:
                self.take(what.kind, what.numbers)
                self.changed.notify_all()

    def take(self, kind, numbers):
        if kind in ('active', 'declared') and self.news[numbers[0]] != 'active':
            self.news[numbers[0]] = kind
        elif kind == 'asked' and HOME[numbers[0]] != HOME[numbers[1]]:
            self.asked.add(numbers)
        elif kind == 'free':
            self.leaving[numbers[0]].discard(numbers[1])

    def lock(self, process, lock):
        """Whether the process has the lock now; if not, it is the victim of a deadlock."""
        def ahead():
            return set(queue[:queue.index(process)])
        with self.changed:
            (queue := self.queues[lock]).append(process)
            self.changed.wait_for(lambda: not ahead() & self.leaving[process])
            if not (others := ahead()):
                return True
            self.news[process] = ''
            self.sites[HOME[process]].ask(process, others)
            self.counts['waits'] += 1
            self.asked |= {(other, process) for other in others if HOME[other] == HOME[process]}
            for other in others:
                self.named[other].add(process)
            self.changed.wait_for(lambda: self.news[process])
            return self.news[process] == 'active' or not self.withdraw(process)

    def withdraw(self, process):
        """Whether it was still waiting."""
        site = self.sites[HOME[process]]
        try:
            site.withdraw(process)
        except Refused:                     # 16: it goes on after all
            self.changed.wait_for(lambda: self.news[process] == 'active')
            return False
        self.counts['victims'] += 1
        self.leaving[process] = set(site.leaving(process))
        for other, askers in self.named.items():
            askers.discard(process)
            self.asked.discard((other, process))
        return True

    def release(self, process):
        """Gives back all locks, and grants each request for the process once it has come."""
        with self.changed:
            for queue in self.queues.values():
                queue[:] = [each for each in queue if each != process]
            while self.named[process]:
                for asker in [each for each in self.named[process] if (process, each) in self.asked]:
                    self.asked.discard((process, asker))
                    with suppress(Refused):     # 6: an older request was told, and the newer one is still to come
                        self.sites[HOME[process]].reply(process, asker)
                        self.named[process].discard(asker)
                self.changed.notify_all()
                self.changed.wait_for(lambda: not self.named[process] or self.asked & {(process, j) for j in self.named[process]})

    def work(self, process, end):
        while time.monotonic() < end:
            wanted = random.sample(range(LOCKS), WANTED)
            while not all(self.lock(process, lock) for lock in wanted):
                self.release(process)
            time.sleep(HELD * random.random())
            self.release(process)
            self.counts['commits'] += 1


def serve(program, folder):
    held = [socket.create_server(('127.0.0.1', 0)) for _ in range(2 * len(SITES))]
    ports = [each.getsockname()[1] for each in held]
    topology, doors, running = os.path.join(folder, 'topology.json'), dict(zip(SITES, ports[len(SITES):])), []
    with open(topology, 'w') as file:
        json.dump({'edition': 3, 'world': os.urandom(16).hex(), 'sites': [
            {'site': site, 'port': port, 'processes': list(SITES[site])} for site, port in zip(SITES, ports)]}, file)
    for each in held:
        each.close()
    for site in SITES:
        os.mkdir(journal := os.path.join(folder, f'site-{site}'))
        words = ['--topology', topology, '--site', str(site), '--journal', journal, '--port', str(doors[site]), '--new']
        running.append(subprocess.Popen([*program, 'serve', *words], stdout=subprocess.PIPE))
        assert running[-1].stdout.readline() == b'listening\n'
    return running, doors


def main(seconds=10.0):
    with tempfile.TemporaryDirectory() as folder, ThreadPoolExecutor(len(HOME)) as pool:
        running, doors = serve(os.environ.get('CMH', 'cmh').split(), folder)
        manager, end = Manager(doors), time.monotonic() + float(seconds)
        list(pool.map(lambda process: manager.work(process, end), HOME))
        for site in running:
            site.terminate()
    print('{commits} commits {waits} waits {victims} victims'.format_map(manager.counts))


if __name__ == '__main__':
    main(*sys.argv[1:])
