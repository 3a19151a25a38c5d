"""One client of the service: its lines, its views, cursors and watches, and its replies in their order."""
