"""Each link of a page to another page, file or heading of the repository leads there. Nothing is asked of other machines."""
import os
import re
import unittest

HERE = os.path.dirname(os.path.abspath(__file__))
ROOT = os.path.dirname(HERE)
LINK = re.compile(r'\[[^\]]*\]\(([^)\s]+)\)')
FENCE = re.compile(r'^ *```.*?^ *```', re.M | re.S)


def pages():
    for folder, inner, names in os.walk(ROOT):
        inner[:] = [name for name in inner if name not in ('out', 'bin') and not name.startswith('.')]
        yield from (os.path.join(folder, name) for name in names if name.endswith('.md'))


def text_of(path):
    """A page without its blocks of code."""
    with open(path, encoding='utf-8') as file:
        return FENCE.sub('', file.read())


def anchor(heading):
    words = LINK.sub(lambda link: link[0][1:link[0].index(']')], heading).strip().lower()
    return re.sub(r'[^\w\- ]', '', words).replace(' ', '-')


def anchors(text):
    """The names of a page's headings, and of those that come again: `name-1`."""
    found = set()
    for heading in re.findall(r'^#+ (.*)$', text, re.M):
        name, count = anchor(heading), 0
        while (name if count == 0 else f'{name}-{count}') in found:
            count += 1
        found.add(name if count == 0 else f'{name}-{count}')
    return found


def lost(path, text):
    """The links of a page that lead nowhere."""
    for link in LINK.findall(re.sub(r'`[^`\n]*`', '', text)):
        if re.match(r'[a-z]+:', link):
            continue
        name, _, heading = link.partition('#')
        target = os.path.normpath(os.path.join(os.path.dirname(path), name)) if name else path
        if not os.path.exists(target) or heading and heading not in anchors(text if target == path else text_of(target)):
            yield f'{os.path.relpath(path, ROOT)}: {link}'


class Links(unittest.TestCase):
    def test_each_link_leads_to_a_file_or_a_heading(self):
        found = list(pages())
        self.assertIn(os.path.join(ROOT, 'docs', 'MODEL.md'), found)
        self.assertEqual([link for path in found for link in lost(path, text_of(path))], [])

    def test_a_link_that_leads_nowhere_is_seen(self):
        page = os.path.join(ROOT, 'docs', 'MODEL.md')
        text = '# One\n## Two `words`, here\n# One\n[a](#one) [b](#one-1) [c](#two-words-here) [d](../README.md) [e](#one-2) [f](NONE.md) [g](STORE.md#none)\n'
        self.assertEqual(list(lost(page, text)), ['docs/MODEL.md: #one-2', 'docs/MODEL.md: NONE.md', 'docs/MODEL.md: STORE.md#none'])


if __name__ == '__main__':
    unittest.main()
