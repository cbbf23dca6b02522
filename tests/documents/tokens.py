"""What the manual shows as no token is refused as one."""
from product import ask
from manual import codes, rows


def checks():
    for name, _, wrong in rows("Tokens", "token", "how it is written", "not so"):
        for text in codes(wrong):
            yield "%s: %s" % (name, text), ask("tokens", "--", text), 3
