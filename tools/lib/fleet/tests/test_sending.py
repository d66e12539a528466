"""What a playbook says of each host."""
import unittest

from lib.fleet.sending import said_in

PRINTED = """\
TASK [Send the batch] ****
changed: [gate01]
FAILED - RETRYING: [gate04]: Send the batch (1 retries left).
fatal: [gate04]: FAILED! => {"attempts": 2, "msg": "Status code was -1 and not [200]: refused", "status": -1}

TASK [See whether it was refused] ****
ok: [gate01] => {
    "changed": false,
    "msg": "took it"
}
fatal: [gate03]: FAILED! => {
    "assertion": "sent.status == 200",
    "msg": "refused: E56 BatchChanged"
}
"""


class Said(unittest.TestCase):
    def test_each_host(self) -> None:
        wanted = {"gate01": "took it", "gate03": "refused: E56 BatchChanged", "gate04": "no answer"}
        self.assertEqual(said_in(PRINTED), wanted)


if __name__ == "__main__":
    unittest.main()
