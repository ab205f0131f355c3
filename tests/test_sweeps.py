"""A request sweeps a thousand times at most before it is handled: so what a runner says of a lease that is over, and not ended yet, is refused too."""
import unittest

from cases import Case, tell
from events import is_accepted

JOBS = 200
PIPELINES = 6
LEASES = 1001
MANY = {'many': ''.join(f'j{number}:\n  script: make\n' for number in range(JOBS))}


class Sweeps(Case):
    def live(self):
        return [number for number, in self.world.rows('SELECT id FROM attempt WHERE state = 0 ORDER BY id')]

    def test_the_lease_behind_a_thousand_is_over_and_not_ended(self):
        self.begin('add-project p', 'add-runner r')
        self.assertEqual(tell(self.world, 'set-file 1 many', MANY), f'200 {{"jobs":{JOBS}}}')
        for number in range(PIPELINES):
            self.assertTrue(is_accepted(tell(self.world, f'create 1 b{number}')))
        for number in range(1, LEASES + 1):
            self.assertTrue(tell(self.world, 'ask r1').startswith(f'201 {{"id":{number},'))
        self.assertEqual(self.live(), list(range(1, LEASES + 1)))
        self.told(f'at 1120 running j{LEASES}', '403 M7')
        self.assertEqual(self.live(), [LEASES])
        self.told(f'append j{LEASES} 0 a', '403 M6 failed')
        self.assertEqual(self.live(), [])


if __name__ == '__main__':
    unittest.main()
