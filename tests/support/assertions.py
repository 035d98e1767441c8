"""What a check has to find. Python's own `assert` says nothing where an environment variable switches it off."""


def require(is_so, *what):
    if not is_so:
        raise AssertionError(*what)
