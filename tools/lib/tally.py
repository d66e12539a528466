"""What was good and what was not."""


class Tally:
    def __init__(self, is_silent: bool = False) -> None:
        self.passed, self.failed, self.is_silent = 0, 0, is_silent

    def wants(self, title: str, good: bool, found: object = None) -> bool:
        """Counts one check; if it is not good, prints its title and what was found, unless it is to be silent."""
        if good:
            self.passed += 1
        else:
            self.failed += 1
            if not self.is_silent:
                print(f"{title}: no" + (f", but {found!r}"[:1_000] if found is not None else ""), flush=True)
        return good

    def equal(self, title: str, found: object, wanted: object) -> bool:
        return self.wants(title, found == wanted, (found, "and not", wanted))

    def tell_before(self, place: str) -> None:
        """Tells of the checks that stand before a row and were made for it alone, if not all are good."""
        if self.failed:
            print(f"{place}: {self.failed} of {self.failed + self.passed} checks before it failed", flush=True)
