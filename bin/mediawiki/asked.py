"""One request of a client, as the modules see it."""
import dataclasses

from mediawiki.pages import Reader
from mediawiki.parameters import Given


@dataclasses.dataclass(frozen=True)
class Site:
    """What is told of the site: its address without a slash at its end, its name, and its main page."""

    base: str
    name: str
    main_page: str = "Main Page"


class Asked(Given):
    """The parameters of a request, what is told of them, and how the wiki is read for it."""

    def __init__(self, parameters, in_address, server, is_posted, client):
        super().__init__(parameters, in_address)
        self.server, self.site, self.is_posted, self.client = server, server.site, is_posted, client
        self.reader = Reader(server.wiki, server.index)

    def tell_points(self):
        """Tells where the wiki has changed while this was answered."""
        points = self.reader.points
        if len(points) > 1:
            self.warn("main", f"The wiki has changed while this was answered: parts of it are of different moments (points {min(points)} to {max(points)}).")
