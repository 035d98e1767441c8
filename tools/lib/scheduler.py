"""Which crate is proved next and by how many jobs, and how long all will take."""
import copy

# So much of each job beyond the first is lost, in work that is done twice and in waits for one another.
COST_OF_A_JOB = 0.5
# More jobs than this gain next to nothing.
MOST_JOBS = 4
# A crate is urgent where its chain is at least so long, of the longest one that is left.
URGENT = 0.85


class Plan:
    """Which crates are proved, which of them begins next and by how many jobs, and how long all will take.

    All work is to be small, since there are few processors, and then the longest chain short. More jobs on a proof cost
    more work, so only the crates of the longest chain that is left get more than one.
    """

    def __init__(self, crates, names, processors):
        self.crates, self.left, self.processors = crates, list(names), processors
        self.seconds = crates.seconds()
        self.proved, self.running, self.took, self.wanted = [], {}, 0.0, 0.0
        # The chain from each crate on, itself and what depends on it, in seconds.
        self.chain = {}
        for name in reversed(self.left):
            above = [self.chain[it] for it in self.chain if name in crates.stands_on[it]]
            self.chain[name] = self.seconds[name] + max(above, default=0.0)

    def next(self, now):
        """The crate that begins now, its jobs, and whether it is urgent; or None where none can begin."""
        ready = [it for it in self.left if all(below in self.proved for below in self.crates.stands_on[it])]
        if not ready:
            return None
        name = max(ready, key=self.chain.get)
        idle = self.processors - sum(jobs for _, jobs in self.running.values())
        # What cannot wait for half of its time wants processors too.
        without = self.needs(name, now) - self.scale() * self.seconds[name] / 2
        rivals = [it for it in [*ready, *self.running] if it != name and self.needs(it, now) > without]
        # Where all that is left waits for it or can wait, what still runs will soon leave its processors to it.
        alone = not rivals and all(name in self.crates.up_to(it) or self.needs(it, now) <= without for it in self.left)
        if idle <= 0 and not alone:
            return None
        urgent = alone or self.needs(name, now) >= URGENT * self.longest(now)
        # One processor is left to the others in any case, or they would hold all up at the end.
        left = max(sum(it in ready for it in rivals), int(len(ready) > 1))
        share = max(idle - left, self.processors - 1 if alone else 1, 1)
        jobs = min(share, MOST_JOBS) if urgent else 1
        self.left.remove(name)
        self.running[name] = now, jobs
        return name, jobs, urgent

    def end(self, name, now):
        """Takes note that the crate is proved, and returns how many seconds it took."""
        began, jobs = self.running.pop(name)
        self.proved.append(name)
        self.took += now - began
        self.wanted += self.wait_for(name, jobs)
        return now - began

    def wait_for(self, name, jobs):
        """How long this machine would be expected to take for the crate."""
        return self.seconds[name] * (1 + COST_OF_A_JOB * (jobs - 1)) / jobs

    def scale(self):
        """How many times what is expected the proofs took so far."""
        return self.took / self.wanted if self.wanted else 1.0

    def rest(self, name, now):
        """How long a running proof is expected to go on, in seconds."""
        began, jobs = self.running[name]
        whole = self.scale() * self.wait_for(name, jobs)
        return max(whole - (now - began), whole / 10)

    def needs(self, name, now):
        """How long the crate and what depends on it will take from now on, in seconds: the chain that it begins."""
        if name in self.running:
            return self.rest(name, now) + self.scale() * (self.chain[name] - self.seconds[name])
        return self.scale() * self.chain[name]

    def longest(self, now):
        """The longest chain that is left, in seconds."""
        return max((self.needs(it, now) for it in [*self.running, *self.left]), default=0.0)

    def time_left(self, now):
        """How long all that is left will take, in words."""
        minutes = round((self.end_of_all(now) - now) / 60)
        if minutes < 1:
            return "less than a minute"
        return f"about {minutes} minute{'s' * (minutes > 1)}"

    def end_of_all(self, now):
        """When all will be proved, if each proof takes as long as is expected: the rest of the plan, played through."""
        rest, scale = copy.copy(self), self.scale()
        rest.left, rest.proved, rest.running = list(self.left), list(self.proved), dict(self.running)
        ends = {it: now + self.rest(it, now) for it in self.running}
        while rest.left or ends:
            begun = rest.next(now)
            if begun:
                name, jobs, _ = begun
                ends[name] = now + scale * self.wait_for(name, jobs)
                continue
            name = min(ends, key=ends.get)
            now = ends.pop(name)
            rest.end(name, now)
        return now
