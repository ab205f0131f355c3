"""What is read of a project, each by a GET of a path of its own. This is the one list of it, by which events, scenarios and tests go."""
import re

# The event's word, and its path below that of the project. The numbers in it are the event's words behind the project's.
READS = {
    'show-project': '',
    'list-pipelines': '/pipelines',
    'list-jobs': '/pipelines/{pipeline}/jobs',
    'list-attempts': '/jobs/{job}/attempts',
    'trace-of': '/jobs/{job}/attempts/{attempt}/trace',
    'list-groups': '/resource_groups',
}
NUMBER = re.compile(r'\{(\w+)\}')


def read(word, project=1, others=1, **numbers):
    """The event's line of one of them, for a project. Each other number is `others`, where it isn't told by its name."""
    return ' '.join([word, str(project), *(str(numbers.get(name, others)) for name in NUMBER.findall(READS[word]))])


def reads(project=1, others=1, **numbers):
    """A line for each of them."""
    return [read(word, project, others, **numbers) for word in READS]
