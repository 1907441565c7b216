"""Where the files of a release are installed, below a prefix."""

SHARE = 'share/zy_bench'
SCRIPTS = ('zview', 'zdb', 'zplay', 'zsuite', 'zlogs')
COMMANDS = ('zy_bench', *SCRIPTS)

# What only a checkout or a release needs.
NOT_INSTALLED = ('README.md', 'CONTRIBUTING.md', 'install', 'RELEASE', 'SOURCES', 'SHA256SUMS')

# The files that are installed elsewhere than in the folder of their own.
ELSEWHERE = {
    'zy_bench': ('bin/zy_bench',),
    'completions/zy_bench.bash': tuple('share/bash-completion/completions/' + name for name in COMMANDS),
    'completions/zy_bench.fish': tuple('share/fish/vendor_completions.d/%s.fish' % name for name in COMMANDS),
    'completions/_zy_bench': ('share/zsh/site-functions/_zy_bench',),
    **{'docs/man/%s.1' % name: ('share/man/man1/%s.1' % name,) for name in COMMANDS},
}

# The files that are installed in one more place.
TWICE = {'editors/vim/%s/zephyr.vim' % kind: 'share/vim/vimfiles/%s/zephyr.vim' % kind for kind in ('syntax', 'ftdetect')}

# The links, each by its name and with the name that it leads to.
LINKS = {SHARE + '/zy_bench': 'bin/zy_bench', **{'bin/' + name: '%s/%s' % (SHARE, name) for name in SCRIPTS}}


def places_of(name):
    """The names under which a file of a release is installed."""
    if name in ELSEWHERE:
        return ELSEWHERE[name]
    if name in NOT_INSTALLED or name.startswith('tools/packing/'):
        return ()
    own = '%s/%s' % (SHARE, name)
    return (own, TWICE[name]) if name in TWICE else (own,)
