#!/usr/bin/env python3
"""Prints what the program layout_rows must print, worked out from the text of the Rust's caf.rs alone; or the names and numbers of its
labels and tags.

  tools/layout_rows.py CAF.RS >crates/layout_rows/stdout
  tools/layout_rows.py --names CAF.RS >tests/names.txt

It reads the numbers of the enums ChannelLabel and ChannelLayoutTag and the rows of STANDARD_LAYOUTS, looks each
row's labels up as the Rust does (the first equal row, none for no labels), and prints for each row its tag, its labels
and the tag that they get, then the same for three lists that no row has.
"""
import re
import sys


def numbers(text, name):
    body = re.search(r'pub enum %s \{(.*?)\n\}' % name, text, re.S).group(1)
    body = re.sub(r'//[^\n]*', '', body)
    return {variant: value(term) for variant, term in re.findall(r'(\w+)\s*=\s*([^,]+),', body)}


def value(term):
    """`(100 << 16) | 1`, `0 << 16`, `0xFFFFFFFF`, `42`"""
    parts = re.fullmatch(r'\(?(\w+)(?: << (\d+)\)?)?(?: \| (\w+))?', term.strip())
    high, shift, low = parts.groups()
    return int(high, 0) << int(shift or 0) | int(low or '0', 0)


def standard_layouts(text, tags, labels):
    body = re.search(r'const STANDARD_LAYOUTS[^=]*= \{(.*?)\n\};', text, re.S).group(1)
    rows = re.findall(r'\(\s*Tag::(\w+),\s*&\[([^\]]*)\],?\s*\)', body)
    return [(tags[tag], [labels[name.strip()] for name in order.split(',') if name.strip()]) for tag, order in rows]


def line(tag, order, rows):
    found = next((t for t, o in rows if o == order and order), 'described')
    return ' '.join([f'{tag}:', *map(str, order), 'gets', str(found)])


def main():
    text = open(sys.argv[-1]).read()
    labels, tags = numbers(text, 'ChannelLabel'), numbers(text, 'ChannelLayoutTag')
    rows = standard_layouts(text, tags, labels)
    assert (len(labels), len(tags), len(rows)) == (47, 50, 43), 'the text is not the one that document 01 counts'
    if sys.argv[1] == '--names':
        for kind, named in ('label', labels), ('tag', tags):
            for name, number in named.items():
                print(kind, name, number)
        return
    for tag, order in rows:
        print(line(tag, order, rows))
    for order in (['Right', 'Left'], [], ['Mono']):
        print(line('none', [labels[name] for name in order], rows))


main()
