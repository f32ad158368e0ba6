"""KiCad's button for the autorouter dsnroute.

KiCad loads this package at its start, so it does nothing here but tell KiCad of the button.
Elsewhere, with or without KiCad's Python, its readers can be imported all the same.
"""
try:
    import pcbnew  # noqa: F401
    import wx
except ImportError:
    pass
else:
    if wx.GetApp() is not None:
        from .plugin import RoutePlugin

        RoutePlugin().register()
