"""The colours of the pictures, light and dark, and the style that is made with them."""

import os
import re

HERE = os.path.dirname(os.path.abspath(__file__))

LIGHT = dict(bg='#ffffff', panel='#f5f6f8', ink='#1b1f24', soft='#5d6672', rule='#dde1e7', A='#b85c08', B='#1f62c0',
             way='#7a45c8', ok='#178345', bad='#cf2438', wait='#9a6a00', split='#0b8080', okbar='#cdebd7', badbar='#f8d3d7', openbar='#e1e5ea',
             stuck='#f3c64b', lock='#22262b', normal='#bfe6c9', empty='#eaedf1', sinit='#fdecd0', sdual='#f9d09b', sfinish='#eeac6d',
             dinit='#dfecfd', ddual='#b4d5f9', dfinish='#86b8f0', atA='#f0b067', atB='#7fb2ee', atAB='#b592ec', changed='#fff3b8')
DARK = dict(bg='#14171b', panel='#1b1f25', ink='#e7eaef', soft='#9aa4b1', rule='#2d343d', A='#f2a04e', B='#74adf8',
            way='#bd97f5', ok='#4cc882', bad='#ff7380', wait='#e5b540', split='#3cc6c6', okbar='#1f4a32', badbar='#572a31', openbar='#343b45',
            stuck='#bd8f22', lock='#f4f6f8', normal='#1f5737', empty='#2a3038', sinit='#483a22', sdual='#6d4a1f', sfinish='#925b20',
            dinit='#20344f', ddual='#285181', dfinish='#306bad', atA='#b36d20', atB='#356fb8', atAB='#7d55bd', changed='#4d4414')
MODES = ('normal', 'empty', 'sinit', 'sdual', 'sfinish', 'dinit', 'ddual', 'dfinish')


def part(name):
    """A file beside this one."""
    with open(os.path.join(HERE, name), encoding='utf-8') as file:
        return file.read()


def drawing_css():
    """The style of the drawing, with `var(NAME)` for each colour."""
    return part('drawing.css') + ''.join('.%s{fill:var(%s)}' % (mode, mode) for mode in MODES) + '\n'


def coloured(css, colours):
    """A style with its colours in it."""
    return re.sub(r'var\((\w+)\)', lambda name: colours[name.group(1)], css)


def svg_css():
    """The style of a file of its own: dark where the reader's system is."""
    return coloured(drawing_css(), LIGHT) + '@media(prefers-color-scheme:dark){%s}' % coloured(drawing_css(), DARK)


def page_css():
    """The style of the page: the colours are its properties, the dark ones where the reader's system or the button says so."""
    light, dark = (''.join('--%s:%s;' % pair for pair in colours.items()) for colours in (LIGHT, DARK))
    drawn = re.sub(r'var\((\w+)\)', r'var(--\1)', drawing_css())
    return ':root{%scolor-scheme:light}@media(prefers-color-scheme:dark){:root:not([data-theme=light]){%scolor-scheme:dark}}' \
        ':root[data-theme=dark]{%scolor-scheme:dark}\n%s%s' % (light, dark, dark, drawn, part('page.css'))
