"""Cases that are purged by hand, compared with what the model itself leaves of the whole run before them."""

import re
from dataclasses import dataclass, replace

from .cases import Player
from .classes import class_of
from .config import Config
from .purge import purge_config, purge_events, purge_list
from .system import run


@dataclass
class Input:
    """What a run is given."""

    config: Config
    images: list
    volumes: list
    events: list


class InputPlayer(Player):
    """Plays cases without their rounds, and notes what the last run of each is given."""

    def begin(self) -> None:
        super().begin()
        self.input = None

    def tell(self, given, words: list):
        return given.tell(words, self.note, given.room)

    def note(self, config, images, volumes, events, rounds):
        self.input = Input(config, images, volumes, events)
        return run(config, images, volumes, [], 0)


def check_purge(folder: str, name: str) -> list:
    """For each case that is purged to a class, by its title, what the model leaves otherwise."""
    player, whole, results = InputPlayer(folder), None, []
    for title, _ in player.play(name):
        purged_to = re.search("purged to ([^ :]+)", title)
        if purged_to:
            results.append((title, purge_differences(whole, player.input, class_of(purged_to[1]))))
        elif player.input:
            whole = player.input
    return results


def purge_differences(whole: Input, by_hand: Input, to) -> list:
    """A case may have a slice of its own, which changes nothing."""
    config = replace(whole.config, slice=by_hand.config.slice)
    parts = {
        "configuration": (by_hand.config, purge_config(config, to)),
        "list of images": (by_hand.images, purge_list(config.guests, whole.images, to)),
        "list of volumes": (by_hand.volumes, purge_list(config.volumes, whole.volumes, to)),
        "list of events": (by_hand.events, purge_events(config, whole.events, to)),
    }
    return ["the model leaves another %s" % word for word, (wanted, made) in parts.items() if wanted != made]
