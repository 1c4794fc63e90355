"""The joined entry of many districts."""


def join_entries(entries):
    value = {'whole': lambda e: 0, 'never': lambda e: 721, 'minute': lambda e: e[1]}
    opens = [e for e in entries if e[0] == 'open']
    m = max((value[e[0]](e) for e in entries if e[0] != 'open'), default=0)
    z = max((e[1] for e in opens), default=0)
    if m >= z:
        return ('whole',) if m == 0 else ('never',) if m == 721 else ('minute', m)
    cell = next(e[3] for e in opens if e[1] == z)
    return ('open', z, max(m, max(e[2] for e in opens)), cell)
