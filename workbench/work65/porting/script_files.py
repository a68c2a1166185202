"""The files that a script writes."""
import os
from typing import List

from work65.frontend.edits import edited
from work65.frontend.files import Text
from work65.frontend.link_script import OUTPUT
from work65.frontend.scripts import entries_in, words_of
from work65.output import words

FOLDERS = ("/usr/share/cc65/cfg", "/usr/local/share/cc65/cfg")

def place_of(name: str) -> str:
    """Returns the path of a script, for which ld65 also looks in cc65's folder."""
    own = os.path.join(os.environ.get("CC65_HOME", ""), "cfg")
    folders = ["", os.environ.get("LD65_CFG", ""), own, *FOLDERS]
    places = [os.path.join(folder, name) for folder in folders]
    return next((it for it in places if os.path.isfile(it)), name)


def written_by(script: Text) -> List[str]:
    """Returns the files of the areas of a script, by their names as written there."""
    values = [it.get("FILE") for it in entries_in("\n".join(script.lines), "MEMORY")]
    names = [it[0].text.strip('"') if it else OUTPUT for it in values]
    return [it for it in dict.fromkeys(names) if it]


def with_output(script: Text, image: str) -> Text:
    """Returns a script with `%O` for the image's name, and with this name for a `%O` in another one."""
    text, output = "\n".join(script.lines), words(os.path.basename(image))
    edits = []
    for it in words_of(text):
        name = it.text[1:-1].replace(OUTPUT, output)
        if name and it.kind == "string" and it.text.endswith('"'):
            is_output = os.path.normpath(name) in (output, os.path.normpath(words(image)))
            edits.append((it.start, it.end, OUTPUT if is_output else f'"{name}"'))
    return Text(script.path, edited(text, edits).split("\n"), script.ends)
