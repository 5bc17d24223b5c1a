"""The markup and the sentences by which a plan is shown (markup.toml), with their slots filled."""
import json
import os
import tomllib

with open(os.path.join(os.path.dirname(os.path.realpath(__file__)), "markup.toml"), "rb") as file:
    # By name, each a text with slots in braces.
    MARKUP = tomllib.load(file)


def filled(name, /, **slots):
    """The markup or the sentence of a name, with a value for each of its slots. What comes of texts is escaped before."""
    return MARKUP[name].format(**slots)


def rules(told):
    """What a script draws and says by, as text of it: this markup, and by name what other modules say."""
    return f"const RULES = {json.dumps({**told, 'markup': MARKUP}).replace('<', chr(92) + 'u003c')};\n"
