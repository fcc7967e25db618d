"""The tools of zygos for people: a command of tools/ calls a module of one of these packages."""
from zygos_tools.starting import start

start()
