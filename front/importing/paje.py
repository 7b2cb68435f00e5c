"""The Paje format: a trace that says itself which records it has, and which fields each of them has."""
import re

from .faults import TraceFault
from .lines import text

PICOSECONDS = 12
WORDS = re.compile(rb'"([^"]*)"|(\S+)')
TIME = re.compile(rb"(\d{1,12})(?:\.(\d{1,40}))?\Z")

# The fields that a reader takes from each record. Names between bars are names of one field, and a field behind a
# question mark need not be there.
FIELDS = {
    b"PajeDefineContainerType": ("Alias", "Name"),
    b"PajeDefineVariableType": (),
    b"PajeDefineStateType": ("Alias", "Name"),
    b"PajeDefineEventType": (),
    b"PajeDefineLinkType": ("Alias", "Name"),
    b"PajeDefineEntityValue": ("Alias", "Type", "Name"),
    b"PajeCreateContainer": ("Time", "Alias", "Type", "Name"),
    b"PajeDestroyContainer": ("Time", "Name"),
    b"PajeSetVariable": (),
    b"PajeAddVariable": (),
    b"PajeSubVariable": (),
    b"PajeSetState": ("Type",),
    b"PajePushState": ("Time", "Type", "Container", "Value", "?Lnumber"),
    b"PajePopState": ("Time", "Type", "Container"),
    b"PajeResetState": ("Type",),
    b"PajeStartLink": ("Time", "Type", "StartContainer|SourceContainer", "Key", "Size"),
    b"PajeEndLink": ("Time", "Type", "EndContainer|DestContainer", "Key"),
    b"PajeNewEvent": (),
}


def split(line):
    """The words of a line; a word in quotes may hold spaces."""
    if b'"' not in line:
        return line.split()
    return [quoted or plain for quoted, plain in WORDS.findall(line)]


def picoseconds(word, line):
    """The time that a word says, in whole picoseconds; further digits are cut."""
    match = TIME.match(word)
    if match is None:
        raise TraceFault(line, f"has the time {text(word)}, which is no number of seconds")
    whole, part = match.groups(b"")
    return int(whole + part[:PICOSECONDS].ljust(PICOSECONDS, b"0"))


class Records:
    """The records that the trace defines, by the number that stands before each of their lines."""

    def __init__(self):
        self.by_number = {}
        self.open = None

    def define(self, line, number):
        """Takes a line of the definitions, which begins with a percent sign. Answers the number of the record that it
        ends, if it does."""
        words = line[1:].split()
        if words[:1] == [b"EventDef"] and len(words) == 3 and self.open is None:
            if words[1] not in FIELDS:
                raise TraceFault(number, f"defines {text(words[1])}, which is no record of Paje")
            self.open = (words[1], words[2], [])
        elif words == [b"EndEventDef"] and self.open is not None:
            name, key, fields = self.open
            self.by_number[key] = (name, *self._places(name, fields, number))
            self.open = None
            return key
        elif len(words) == 2 and self.open is not None:
            self.open[2].append(text(words[0]))
        else:
            raise TraceFault(number, "is no definition of a record: is this file a Paje trace?")
        return None

    @staticmethod
    def _places(name, fields, number):
        """How many words a line of the record has at least, and where the wanted fields stand; None for one that
        isn't there."""
        places = []
        least = 1
        for wanted in FIELDS[name]:
            names = wanted.lstrip("?").split("|")
            place = next((fields.index(each) + 1 for each in names if each in fields), None)
            if not wanted.startswith("?"):
                if place is None:
                    raise TraceFault(number, f"ends the definition of {text(name)} without the field {names[0]}; "
                                             "trace with the options of docs/import.md")
                least = max(least, place + 1)
            places.append(place)
        return least, places
