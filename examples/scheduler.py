#!/usr/bin/env python3
"""A job scheduler of two sites over `cmh serve` of edition 3. A job waits for all of several others, also at the other site.

    examples/scheduler.py           the program is `cmh`, or the words of the variable CMH

A circular dependency is told at once, with its cycle. The job whose dependency closed it is taken back, and the rest runs.
"""
import os
import tempfile

from locks import HOME, serve

from cmh import Refused, Site3

# Each job with its process, at site 1 from 1 on, at site 2 from 101 on; and whom it waits for.
JOBS = {'fetch': (1, []), 'compile': (101, ['fetch', 'headers']), 'headers': (2, ['fetch']), 'notify': (4, ['compile']),
        'test': (102, ['compile', 'report']), 'report': (3, ['publish']), 'publish': (103, ['test'])}


class Scheduler:
    def __init__(self, doors):
        self.sites = {site: Site3.at(door, patience=60) for site, door in doors.items()}
        for site in self.sites.values():
            site.watch()
        self.name = {process: job for job, (process, _) in JOBS.items()}
        self.waits = {}                              # of each job that waits: for whom

    def site(self, job):
        return self.sites[HOME[JOBS[job][0]]]

    def submit(self, job, after):
        """A job that waits for nobody is ready; of another its site is told."""
        self.waits[job] = set(after)
        if after:
            self.site(job).ask(JOBS[job][0], [JOBS[other][0] for other in after])

    def cycle(self, job):
        """The jobs on a shortest cycle through this one."""
        paths = [[job]]
        for path in paths:
            for other in sorted(self.waits.get(path[-1], ())):
                if other == job:
                    return path + [job]
                paths += [path + [other]] if other not in path else []

    def hear(self):
        """A job that is declared is taken back: it waits for nobody any more, and will not run."""
        for what in (what for site in self.sites.values() for what in site.happenings(0.05)):
            job = self.name.get(what.numbers[0]) if what.kind == 'declared' else None
            if job in self.waits and (cycle := self.cycle(job)):
                print('circular:', ' waits for '.join(cycle))
                self.site(job).withdraw(JOBS[job][0])
                self.waits[job] = set()
                self.finish(job, 'taken back')

    def finish(self, job, how='done'):
        """All who wait for the job go on without it."""
        if self.waits.pop(job, None) is None:
            return
        print(how, job, flush=True)
        for other in list(self.waits):
            while job in self.waits.get(other, ()):
                try:
                    self.site(job).reply(JOBS[job][0], JOBS[other][0])
                    self.waits[other].discard(job)
                except Refused as refused:
                    if refused.number not in (4, 6):
                        raise
                    self.hear()                      # a message is under way: the request, or a grant to the job itself

    def run(self):
        while self.waits:
            self.hear()
            for job in [job for job, after in self.waits.items() if not after]:
                self.finish(job)


def main():
    with tempfile.TemporaryDirectory() as folder:
        running, doors = serve(os.environ.get('CMH', 'cmh').split(), folder)
        scheduler = Scheduler(doors)
        for job, (_, after) in JOBS.items():
            scheduler.submit(job, after)
        scheduler.run()
        for site in running:
            site.terminate()


if __name__ == '__main__':
    main()
