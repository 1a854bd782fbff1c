"""The refusal that ends a run."""


class Refused(Exception):
    """The run can't be made, as its text says."""
