"""Where the pages are to which reports have links."""

from __future__ import annotations

import os

from ._library import INSTALLED
from ._paths import uri


class Pages:
    """Where the pages of the rules are: their folder, as a URI that the user gives, or else that of the package, the
    installation or the repository that the package is in. A report that may be read elsewhere has links of the first
    kind alone. Where there is no page to lead to, a link is empty."""

    # The folders, from the folder of the package or the installation.
    OF_PACKAGE, OF_INSTALLATION, OF_REPOSITORY = "pages/rules", "share/doc/kesvuot/rules", "../../../docs/rules"

    def __init__(self) -> None:
        self.url = ""

    def link(self, section: str) -> str:
        """A section of a page, such as `rules/layout.md#magic`, or `guide/policies.md#keys` beside the rules, for who
        reads it on this machine."""
        return _section(self.url or self._url(), section)

    def shared(self, section: str) -> str:
        """The same for who may read it elsewhere."""
        return _section(self.url, section)

    def _url(self) -> str:
        package = os.path.dirname(os.path.realpath(__file__))
        installed = INSTALLED.fullmatch(package)
        folders = [os.path.join(package, self.OF_PACKAGE)]
        folders += [os.path.join(installed[1], self.OF_INSTALLATION)] if installed else []
        folders.append(os.path.normpath(os.path.join(package, self.OF_REPOSITORY)))
        return next((uri(folder) for folder in folders if os.path.isfile(os.path.join(folder, "layout.md"))), "")


def _section(url: str, section: str) -> str:
    from urllib.parse import urljoin  # pylint: disable=import-outside-toplevel # it loads much, and links are few
    folder, _, page = section.partition("/")
    url = url.rstrip("/")
    return url and (f"{url}/{page}" if folder == "rules" else urljoin(f"{url}/", f"../{section}"))


def see(link: str) -> str:
    """A sentence that leads to a page, if there is a link."""
    return f" See {link}." if link else ""


PAGES = Pages()
