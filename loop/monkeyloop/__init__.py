"""The testing loop of MonkeyDB: runs a command over many seeds, and tells and draws what a run's log says.

The server is proved; this is a script beside it, which is tested. It needs Python 3 and nothing else.
"""
