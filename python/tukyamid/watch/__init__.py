"""`tukyamid watch`: reports when the amount of a binding changes, and who changed it.

`watch_words` reads the words, `watch_command` runs the command, `watch_loop` waits for the service's watch lines and
asks what they mean, `watch_notice` is what is reported, `watch_state` keeps the last report in a file, and
`notice_command` runs the user's command.
"""
