"""The entry in KiCad's menu and tool bar."""
from __future__ import annotations

from pathlib import Path

import pcbnew


class RoutePlugin(pcbnew.ActionPlugin):
    """Routes the open connections of the board in the editor."""

    _is_running = False

    def defaults(self) -> None:
        """Name, place and picture of the button."""
        icon = str(Path(__file__).with_name("icon.png"))
        self.name = "Route with dsnroute"
        self.category = "Routing"
        self.description = "Routes the open connections with the autorouter dsnroute; one undo takes it back"
        self.show_toolbar_button = True
        self.icon_file_name = icon
        self.dark_icon_file_name = icon

    def Run(self) -> None:  # the name is KiCad's
        """Routes the board, unless that is going on already."""
        from .action import route

        if RoutePlugin._is_running:
            return
        RoutePlugin._is_running = True
        try:
            route()
        finally:
            RoutePlugin._is_running = False
