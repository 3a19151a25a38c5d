"""The page that shows who vouches for whom: `tukyamid web`.

A process of the user's serves it on the loopback interface. `web_command` reads the command, `asked_service` finds the
service that is asked, `http_server` and `guard` speak HTTP, `page_calls` answers what the page asks, and `page/` is the
page itself.
"""
