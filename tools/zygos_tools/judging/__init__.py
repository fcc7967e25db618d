"""Looks for an order of all calls on a store that explains what a server answered.

| Module | What it does |
|---|---|
| `events` | commands as they were asked and answered, and their calls |
| `reading` | the commands of a recording, each with its answer |
| `doubts` | what is taken to be known and is not surely so, and may make a `no` of a right server |
| `times` | when each command can have been carried out |
| `seeing` | what an answer says of the replies to the calls of its command |
| `values`, `states` | the values that items have, and what each call does to the item of its key |
| `origin` | the item that a key had before the recording |
| `needs` | what the calls that are left need of a key |
| `anew` | where a server must have counted its uniques anew |
| `search` | an order of the calls on one key, or on a few together |
| `keys` | the orders of all keys |
| `clock` | how long each key is searched, and all of them |
| `orders`, `nearby` | parts of these orders, with states; the calls on a key near to a time |
| `graph`, `sorting` | one order of all calls, made of those of the keys; circles where there is none |
| `fitting`, `mending` | fits the orders of the keys in a circle to each other |
| `numbering` | an order in which stores get the numbers that the server gave them |
| `reasons` | the few calls that no order explains |
| `certificate` | the capture, the journal and the replies that `linear` and `zygos check` take, with what is translated |
| `judge` | all this, one after the other |
| `asking` | asks the proved program `judge` before that |
| `windows` | judges the windows of a recording, each by itself, and says one verdict |
| `processes`, `keeping` | judges windows side by side; keeps what was found of them |
| `chain` | joins windows: asks the proved program about each, from the items that the one before it left |
| `firsts` | the items that a window shows at first; a copy of a window that asks for them at its end |
"""
