"""Why a job ends before its script has: two exceptions."""


class Refused(Exception):
    """The runner can't run the job, for a reason that its trace tells."""


class Stopped(Exception):
    """The job is to end: it was told so, or its time is over."""
